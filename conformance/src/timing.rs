//! Times of calls on one load, which are made in turn, in one run.

use std::time::Instant;

/// A run makes a short call so often that it takes about this long, in microseconds.
const RUN: f64 = 200.0;

/// A call by its name. What it writes to stays as the last call left it.
pub type Call<L> = (&'static str, fn(&mut L));

/// Makes a call so many times.
fn repeat<L>(load: &mut L, call: fn(&mut L), times: usize) {
    for _ in 0..times {
        call(load);
    }
}

/// Microseconds of so many calls.
fn time<L>(load: &mut L, call: fn(&mut L), times: usize) -> f64 {
    let start = Instant::now();
    repeat(load, call, times);
    start.elapsed().as_secs_f64() * 1e6
}

/// Microseconds of one of each call: the best of so many runs in turn, after one run of each that is
/// not counted.
pub fn best_in_turn<L, const N: usize>(load: &mut L, calls: [Call<L>; N], runs: usize) -> [f64; N] {
    let often = calls.map(|(_, call)| (RUN / time(load, call, 1)).ceil() as usize);
    let mut best = [f64::INFINITY; N];
    for _ in 0..runs {
        for (at, (_, call)) in calls.into_iter().enumerate() {
            let run = time(load, call, often[at]) / often[at] as f64;
            best[at] = best[at].min(run);
        }
    }
    best
}

/// Makes the call of this name so many times.
pub fn call_only<L>(calls: &[Call<L>], name: &str, load: &mut L, times: usize) {
    let (_, call) = calls.iter().find(|known| known.0 == name).expect("there is such a call");
    repeat(load, *call, times);
}
