//! Times: the least of several turns, the engines taking turns.

use crate::engines::{drop_text, Engine, RECORD};
use std::time::Instant;

/// Nanoseconds per record of each engine on its records, after the same beginning.
pub fn per_record(prepared: &[Box<dyn Engine>], logs: &[&[u8]], turns: usize) -> Vec<f64> {
    let mut least = vec![f64::INFINITY; prepared.len()];
    for _ in 0..turns {
        for ((engine, log), least) in prepared.iter().zip(logs).zip(&mut least) {
            let mut engine = engine.copy();
            let started = Instant::now();
            engine.run(log, &mut drop_text);
            let nanoseconds = started.elapsed().as_nanos() as f64;
            *least = least.min(nanoseconds / (log.len() / RECORD) as f64);
        }
    }
    least
}

/// Nanoseconds of one run of `work`, the least of the turns, each of which runs it `times` times.
pub fn once(turns: usize, times: usize, mut work: impl FnMut()) -> f64 {
    let [least] = each(turns, times, [&mut |_| work()]);
    least
}

/// The same of each work, the works taking turns. A work is told the number of its run in the turn.
pub fn each<const N: usize>(turns: usize, times: usize, mut works: [&mut dyn FnMut(usize); N]) -> [f64; N] {
    let mut least = [f64::INFINITY; N];
    for _ in 0..turns {
        for (work, least) in works.iter_mut().zip(&mut least) {
            let started = Instant::now();
            (0..times).for_each(&mut **work);
            *least = least.min(started.elapsed().as_nanos() as f64 / times as f64);
        }
    }
    least
}
