//! Times of `parse_meshes` on lists of one and of two large meshes and of a tiny one.

use std::hint::black_box;

use reference::mesh;

use crate::mesh_lists::{filled, large, lone, pair, tiny, Steps};
use crate::timing::medians;

const MIB: usize = 1 << 20;
const RUNS: usize = 15;
/// Mebibytes of the lists that grow, and the runs for each.
const GROWING: [(usize, usize); 4] = [(1, 15), (4, 9), (16, 5), (64, 3)];

const HEADING: [&str; 5] = [
    "parse_meshes, ours with three buffers of exactly the needed lengths, allocated once outside",
    "the timing and warm; the time has our own measuring pass, and the Rust's allocating and",
    "freeing of its answer; a large mesh has 10000 coordinates, 32000 vertices and submeshes of",
    "128000 points, a tiny one 4, 6 and one of 12, and is read again and again up to 1 MiB; both sides",
    "gave the same drawing before; medians of the runs, ratio = ours / rust",
];

struct Buffers {
    numbers: Vec<u16>,
    floats: Vec<u32>,
    records: Vec<u32>,
}

pub fn table() -> Result<(), String> {
    println!();
    for line in HEADING {
        println!("{line}");
    }
    println!(
        "{:<26} {:>8} {:>8} {:>4} {:>8} {:>8} {:>9} {:>9} {:>6}",
        "list", "bytes", "points", "runs", "rust_ms", "ours_ms", "rust_ns/B", "ours_ns/B", "ratio"
    );
    for (name, steps) in [
        ("1 large, small steps", Steps::Small),
        ("1 large, random steps", Steps::Random),
    ] {
        row(name, &lone(large(steps, 4)), RUNS)?;
    }
    row("2 large, small steps", &pair(large(Steps::Small, 2)), RUNS)?;
    row("1 tiny, again and again", &lone(tiny()), RUNS)?;
    for (mebibytes, runs) in GROWING {
        let payload = filled(mebibytes * MIB);
        row(&format!("1 large in {mebibytes} MiB"), &payload, runs)?;
    }
    Ok(())
}

/// Makes one run of one side on one of these lists, as for its row.
pub fn once(side: &str, list: &str) -> Result<(), String> {
    let payload = match list {
        "small" => lone(large(Steps::Small, 4)),
        "random" => lone(large(Steps::Random, 4)),
        "tiny" => lone(tiny()),
        _ => return Err(format!("no list {list}")),
    };
    let mut buffers = needed(&payload).ok_or("not measured".to_string())?;
    let points = counted(side, &payload, &mut buffers);
    println!("{side} {list}: {points:?} points");
    Ok(())
}

/// Under a name of its own, for an instruction counter to start and stop at.
#[inline(never)]
fn counted(side: &str, payload: &[u8], buffers: &mut Buffers) -> Option<u64> {
    let times = times(payload);
    match side {
        "rust" => repeated(times, || rust(black_box(payload))),
        "ours" => repeated(times, || ours(black_box(payload), buffers)),
        _ => None,
    }
}

fn row(name: &str, payload: &[u8], runs: usize) -> Result<(), String> {
    let mut buffers = needed(payload).ok_or(format!("not measured: {name}"))?;
    let points = ours(payload, &mut buffers);
    if points.is_none() || !same(payload, &buffers) {
        return Err(format!("the drawings differ: {name}"));
    }
    let times = times(payload);
    let (rust, ours) = medians(
        runs,
        buffers,
        |_| repeated(times, || rust(black_box(payload))),
        |buffers| repeated(times, || ours(black_box(payload), buffers)),
    );
    let bytes = times * payload.len();
    let per_byte = |time: f64| time / bytes as f64;
    println!(
        "{name:<26} {bytes:>8} {:>8} {runs:>4} {:>8.2} {:>8.2} {:>9.3} {:>9.3} {:>6.3}",
        times as u64 * points.unwrap_or(0),
        rust / 1e6,
        ours / 1e6,
        per_byte(rust),
        per_byte(ours),
        ours / rust
    );
    Ok(())
}

/// How often a list is read in a run: as often as its bytes fit into 1 MiB, and once at least.
fn times(payload: &[u8]) -> usize {
    (MIB / payload.len()).max(1)
}

/// The points of all calls together.
fn repeated(times: usize, mut call: impl FnMut() -> Option<u64>) -> Option<u64> {
    (0..times).map(|_| call()).sum()
}

fn needed(payload: &[u8]) -> Option<Buffers> {
    let mut words = [0; 6];
    if hoodsorrel::raw::measure_meshes(payload, &mut words) != 6 {
        return None;
    }
    let [.., numbers, floats, records] = words.map(|n| n as usize);
    Some(Buffers {
        numbers: vec![0; numbers],
        floats: vec![0; floats],
        records: vec![0; records],
    })
}

/// The number of points.
fn rust(payload: &[u8]) -> Option<u64> {
    let meshes = mesh::parse_meshes(payload)?;
    let submeshes = meshes.iter().flat_map(|mesh| &mesh.submeshes);
    Some(submeshes.map(|submesh| submesh.vertex_count() as u64).sum())
}

/// The number of points.
fn ours(payload: &[u8], buffers: &mut Buffers) -> Option<u64> {
    let Buffers {
        numbers,
        floats,
        records,
    } = buffers;
    let mut words = [0; 8];
    let code = hoodsorrel::raw::parse_meshes(payload, numbers, floats, records, &mut words);
    (code == 6).then_some(words[2])
}

/// Whether the Rust draws what is in the buffers.
fn same(payload: &[u8], buffers: &Buffers) -> bool {
    let Some(meshes) = mesh::parse_meshes(payload) else {
        return false;
    };
    let mut records = buffers.records.chunks_exact(5);
    let mut floats = &buffers.floats[..];
    // One mesh is for both eyes, 0; of two the first is for the left one, 1.
    let first_eye = u32::from(meshes.len() == 2);
    for (eye, mesh) in (first_eye..).zip(&meshes) {
        for submesh in &mesh.submeshes {
            let points = submesh.vertex_count();
            let first = (buffers.floats.len() - floats.len()) / 5;
            let (texture, mode) = (submesh.texture_id.into(), submesh.mode.into());
            let record = [eye, texture, mode, first as u32, points as u32];
            let Some((drawn, rest)) = floats.split_at_checked(5 * points) else {
                return false;
            };
            let due = submesh.vertices.iter().map(|x| x.to_bits());
            if records.next() != Some(&record[..]) || !due.eq(drawn.iter().copied()) {
                return false;
            }
            floats = rest;
        }
    }
    floats.is_empty() && records.next().is_none()
}
