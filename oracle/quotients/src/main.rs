//! Compares the proved multiply-and-divide with whole numbers of 128 bits: at every edge of a division in half limbs, and at random.

mod compared;
mod door;
mod inputs;
mod model;
#[cfg(test)]
mod slips;
mod ways;

use compared::{compare, Difference, PROVED};
use oracle::{count_seed_threads, grouped, share_out, Rng};
use std::process::ExitCode;
use std::time::Instant;
use ways::{Table, Ways};

const USAGE: &str = "usage: quotients RANDOM [SEED [THREADS]]
  RANDOM   how many are tried at random, besides the edges
  SEED     1 where none is given
  THREADS  as many as there are processors where none is given";

/// A seed is used for so many.
const PER_SEED: u64 = 1_000_000;

/// A part of the work that stands by itself.
enum Job {
    Edges { divisor: u64 },
    Random { seed: u64, count: u64 },
}

#[derive(Default)]
struct Counts {
    edges: u64,
    random: u64,
    edge_ways: Ways,
    random_ways: Ways,
}

impl Counts {
    /// Answers how many were compared.
    fn run(&mut self, job: &Job) -> Result<u64, Difference> {
        let (compared, kind) = match *job {
            Job::Edges { divisor } => (compare(PROVED, inputs::edges(divisor), &mut self.edge_ways)?, &mut self.edges),
            Job::Random { seed, count } => {
                let mut rng = Rng(seed);
                let inputs = (0..count).map(|_| inputs::random(&mut rng));
                (compare(PROVED, inputs, &mut self.random_ways)?, &mut self.random)
            }
        };
        *kind += compared;
        Ok(compared)
    }

    fn add(&mut self, other: &Counts) {
        self.edges += other.edges;
        self.random += other.random;
        self.edge_ways.add(&other.edge_ways);
        self.random_ways.add(&other.random_ways);
    }
}

fn jobs(random: u64, seed: u64) -> Vec<Job> {
    let edges = inputs::edge_words().into_iter().map(|divisor| Job::Edges { divisor });
    let seeds = (0..random.div_ceil(PER_SEED))
        .map(|at| Job::Random { seed: seed.wrapping_add(at), count: PER_SEED.min(random - at * PER_SEED) });
    edges.chain(seeds).collect()
}

fn main() -> ExitCode {
    let Some([random, seed, threads]) = count_seed_threads() else {
        eprintln!("{USAGE}");
        return ExitCode::FAILURE;
    };
    let started = Instant::now();
    let counts = match run(&jobs(random, seed), threads, started) {
        Ok(counts) => counts,
        Err(difference) => {
            eprintln!("quotients: {difference}");
            return ExitCode::FAILURE;
        }
    };
    if let Some(way) = counts.edge_ways.missed() {
        eprintln!("quotients: the edges have none with: {way}");
        return ExitCode::FAILURE;
    }
    let Counts { edges, random, edge_ways, random_ways } = counts;
    let (edges, random, seconds) = (grouped(edges), grouped(random), started.elapsed().as_secs());
    println!("{edges} at the edges and {random} at random from seed {seed} on; {seconds} s; 0 differences\n");
    println!("| way of the division | edges | random |\n|---|---:|---:|\n{}", Table(&edge_ways, &random_ways));
    ExitCode::SUCCESS
}

fn run(jobs: &[Job], threads: u64, started: Instant) -> Result<Counts, Difference> {
    let counted = share_out(
        jobs,
        threads,
        |job, counts: &mut Counts| counts.run(job),
        |done| {
            let (done, seconds) = (grouped(done), started.elapsed().as_secs());
            eprintln!("quotients: {done} compared, {seconds} s, 0 differences so far");
        },
    )?;
    let mut sum = Counts::default();
    counted.iter().for_each(|counts| sum.add(counts));
    Ok(sum)
}
