//! Jobs shared out over threads, with a word every ten seconds on how far they are.

use std::env;
use std::sync::atomic::{AtomicU64, AtomicUsize, Ordering};
use std::sync::mpsc::{self, RecvTimeoutError};
use std::thread;
use std::time::Duration;

const TELL_EVERY: Duration = Duration::from_secs(10);

/// The command's words COUNT [SEED [THREADS]]: without them the seed is 1, and there are as many threads as processors. None for other words.
pub fn count_seed_threads() -> Option<[u64; 3]> {
    let numbers: Option<Vec<u64>> = env::args().skip(1).map(|number| number.parse().ok()).collect();
    let processors = thread::available_parallelism().map_or(1, |count| count.get() as u64);
    match numbers?[..] {
        [count] => Some([count, 1, processors]),
        [count, seed] => Some([count, seed, processors]),
        [count, seed, threads] if threads > 0 => Some([count, seed, threads]),
        _ => None,
    }
}

/// Runs the jobs, each thread taking the next and keeping counts of its own; the first failure ends it. `run` answers how many cases a job
/// had, and `tell` is told how many there have been.
pub fn share_out<Job: Sync, Counts: Default + Send, Failure: Send>(
    jobs: &[Job],
    threads: u64,
    run: impl Fn(&Job, &mut Counts) -> Result<u64, Failure> + Sync,
    tell: impl Fn(u64),
) -> Result<Vec<Counts>, Failure> {
    let (next, done) = (AtomicUsize::new(0), AtomicU64::new(0));
    let work = || {
        let mut counts = Counts::default();
        while let Some(job) = jobs.get(next.fetch_add(1, Ordering::Relaxed)) {
            let cases = run(job, &mut counts).inspect_err(|_| next.store(jobs.len(), Ordering::Relaxed))?;
            done.fetch_add(cases, Ordering::Relaxed);
        }
        Ok(counts)
    };
    thread::scope(|scope| {
        let (finished, wait) = mpsc::channel::<()>();
        let workers: Vec<_> = (0..threads)
            .map(|_| {
                let (finished, work) = (finished.clone(), &work);
                scope.spawn(move || {
                    let _finished = finished;
                    work()
                })
            })
            .collect();
        drop(finished);
        // Every worker holds one end until it is through.
        while wait.recv_timeout(TELL_EVERY) == Err(RecvTimeoutError::Timeout) {
            tell(done.load(Ordering::Relaxed));
        }
        workers.into_iter().map(|worker| worker.join().expect("a worker ends by a result")).collect()
    })
}
