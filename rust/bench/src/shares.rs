//! Nanoseconds per call of points shared out among windows: they grow with the different wishes that are met, not with
//! the points.

use std::hint::black_box;

use crate::timing::medians;

const RUNS: usize = 101;
/// Calls in a run where one is too short for the clock: ours always, the turns where few points are given.
const TIMES: usize = 1000;
const FEW: u32 = 1000;
const POINTS: [u32; 5] = [10, 100, 1000, 100_000, 999_999];
/// The equal ones are never met, and one pass is made. Of the different ones up to seven are met, of the small ones
/// from 36 points on all eight: each takes a pass more.
const WISHES: [(&str, [u32; 8]); 3] = [
    ("equal", [999_999; 8]),
    (
        "different",
        [999_999, 90_000, 70_000, 30_000, 10_000, 500, 60, 7],
    ),
    ("small", [8, 7, 6, 5, 4, 3, 2, 1]),
];

pub fn table() -> Result<(), String> {
    println!();
    println!(
        "share_points, eight windows, a warm buffer; rust goes turn by turn, one point at a time;"
    );
    println!("{TIMES} calls to a run, one of rust where it gives more than {FEW} points; medians of {RUNS} runs,");
    println!("ratio = ours / rust");
    println!(
        "{:<10} {:>8} {:>10} {:>8} {:>9}",
        "wishes", "points", "rust_ns", "ours_ns", "ratio"
    );
    WISHES.iter().try_for_each(|(name, wishes)| {
        POINTS
            .into_iter()
            .try_for_each(|points| row(name, wishes, points))
    })
}

fn row(name: &str, wishes: &[u32; 8], points: u32) -> Result<(), String> {
    let (mut theirs, mut own) = ([0; 8], [0; 8]);
    turns(points, wishes, &mut theirs);
    if !ours(points, wishes, &mut own) || theirs != own {
        return Err(format!("the shares differ: {points} points"));
    }
    let given: u32 = theirs.iter().sum();
    let calls = if given <= FEW { TIMES } else { 1 };
    let (rust, ours) = medians(
        RUNS,
        own,
        |out| {
            for _ in 0..calls {
                turns(black_box(points), wishes, black_box(&mut *out));
            }
        },
        |out| {
            for _ in 0..TIMES {
                black_box(ours(black_box(points), wishes, out));
            }
        },
    );
    let (rust, ours) = (rust / calls as f64, ours / TIMES as f64);
    println!(
        "{name:<10} {points:>8} {rust:>10.1} {ours:>8.1} {:>9.5}",
        ours / rust
    );
    Ok(())
}

fn ours(points: u32, wishes: &[u32], out: &mut [u32; 8]) -> bool {
    hoodsorrel::raw::share_points(points, wishes, out, &mut [0]) == 1
}

fn turns(points: u32, wishes: &[u32; 8], shares: &mut [u32; 8]) {
    *shares = [0; 8];
    let mut left = points;
    loop {
        let before = left;
        for (share, wish) in shares.iter_mut().zip(wishes) {
            if left > 0 && *share < *wish {
                *share += 1;
                left -= 1;
            }
        }
        if left == 0 || left == before {
            return;
        }
    }
}
