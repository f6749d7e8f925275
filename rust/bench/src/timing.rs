//! Medians of times, the two sides in turn.

use std::hint::black_box;
use std::time::Instant;

/// The median nanoseconds of one run of each side, which take turns on the same data.
pub fn medians<D, R>(
    runs: usize,
    mut data: D,
    rust: impl Fn(&mut D) -> R,
    ours: impl Fn(&mut D) -> R,
) -> (f64, f64) {
    let (mut theirs, mut own) = (Vec::new(), Vec::new());
    for _ in 0..runs {
        theirs.push(time(&mut data, &rust));
        own.push(time(&mut data, &ours));
    }
    (median(theirs), median(own))
}

fn time<D, R>(data: &mut D, run: impl Fn(&mut D) -> R) -> f64 {
    let start = Instant::now();
    black_box(run(black_box(data)));
    start.elapsed().as_nanos() as f64
}

fn median(mut times: Vec<f64>) -> f64 {
    times.sort_by(f64::total_cmp);
    times[times.len() / 2]
}
