//! Times of points looked up: many at once, and the same one by one.

use std::hint::black_box;

use reference::mesh;

use crate::mesh_lists::{large, lone, small, Steps};
use crate::random::Random;
use crate::timing::medians;

/// So many points are asked at most.
const MOST: usize = 256;
/// The points of each submesh of the large mesh.
const POINTS: i64 = 128_000;

const HEADING: [&str; 4] = [
    "look_up: 256 points of the last of the large mesh's four submeshes, its last point among them, the others",
    "anywhere, or the first 255 ('crowded'); and all 256 points of a small mesh of 64 vertices, in mixed order.",
    "Each call checks the whole payload first; the Rust has no such call, and its side is one parse_meshes;",
    "medians of the runs, ratio = ours / rust",
];

/// What is asked: a payload's record, and 256 of its points, the last one last.
struct Case {
    payload: Vec<u8>,
    record: u32,
    asked: Vec<u32>,
}

pub fn table() -> Result<(), String> {
    println!();
    for line in HEADING {
        println!("{line}");
    }
    println!(
        "{:<26} {:>8} {:>4} {:>8} {:>8} {:>6}",
        "calls", "bytes", "runs", "rust_us", "ours_us", "ratio"
    );
    let payload = lone(large(Steps::Small, 4));
    let random = &mut Random::new();
    let spread = Case {
        payload: payload.clone(),
        record: 3,
        asked: and_last((1..MOST).map(|_| random.below(POINTS) as u32), POINTS),
    };
    let crowded = Case {
        payload,
        record: 3,
        asked: and_last((1..MOST as u32).map(|k| 97 * k % 255), POINTS),
    };
    let small = Case {
        payload: lone(small()),
        record: 0,
        asked: and_last((1..MOST as u32).map(|k| 97 * k % 255), MOST as i64),
    };
    row("one of 256 points", &spread, 0, MOST, 15)?;
    row("one of 256, crowded", &crowded, 0, MOST, 15)?;
    row("one of 1 point, the last", &spread, MOST - 1, 1, 15)?;
    row("256 of 1 point", &spread, 0, 1, 5)?;
    row("small: one of 256 points", &small, 0, MOST, 501)?;
    row("small: one of 1 point", &small, MOST - 1, 1, 501)?;
    row("small: 256 of 1 point", &small, 0, 1, 101)
}

/// These, and the last of so many points.
fn and_last(asked: impl Iterator<Item = u32>, points: i64) -> Vec<u32> {
    asked.chain([points as u32 - 1]).collect()
}

/// The points from one on, so many with each call.
fn row(name: &str, case: &Case, from: usize, each: usize, runs: usize) -> Result<(), String> {
    let one = ours(case, 0, MOST).ok_or_else(|| format!("refused: {name}"))?;
    if Some(one) != ours(case, 0, 1) {
        return Err(format!("the answers differ, one by one: {name}"));
    }
    let (rust, ours) = medians(
        runs,
        (),
        |()| rust(black_box(&case.payload)),
        |()| ours(black_box(case), from, each),
    );
    println!(
        "{name:<26} {:>8} {runs:>4} {:>8.1} {:>8.1} {:>6.3}",
        case.payload.len(),
        rust / 1e3,
        ours / 1e3,
        ours / rust
    );
    Ok(())
}

/// The sum of the vertex numbers.
fn ours(case: &Case, from: usize, each: usize) -> Option<u64> {
    let mut sum = 0;
    for part in case.asked[from..].chunks(each) {
        let mut vertices = [0; MOST];
        let mut words = [0];
        let code =
            hoodsorrel::raw::look_up(&case.payload, case.record, part, &mut vertices, &mut words);
        if code != 1 {
            return None;
        }
        sum += vertices[..part.len()]
            .iter()
            .copied()
            .map(u64::from)
            .sum::<u64>();
    }
    Some(sum)
}

fn rust(payload: &[u8]) -> Option<u64> {
    mesh::parse_meshes(payload).map(|list| list.len() as u64)
}
