//! Time for the benchmarks.

use std::time::Instant;

/// Seconds for one run of each of several works: the best of several repeats. The works take turns, so that
/// whatever else the machine does falls on all, forwards and backwards, so that none gains by what came before.
pub fn side_by_side<const N: usize>(
    repeats: usize,
    runs: u32,
    works: [&mut dyn FnMut(); N],
) -> [f64; N] {
    let mut best = [f64::INFINITY; N];
    for repeat in 0..repeats {
        for turn in 0..N {
            let work = if repeat % 2 == 0 { turn } else { N - 1 - turn };
            best[work] = best[work].min(seconds(runs, works[work]));
        }
    }
    best
}

fn seconds(runs: u32, work: &mut dyn FnMut()) -> f64 {
    let start = Instant::now();
    (0..runs).for_each(|_| work());
    start.elapsed().as_secs_f64() / f64::from(runs)
}
