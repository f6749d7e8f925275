//! Times of the mesh writer on the largest mesh of one submesh.

use std::hint::black_box;

use spell::Tables;

use crate::mesh_box::write_mesh;
use crate::mesh_lists::{large, Steps};
use crate::timing::medians;

const RUNS: usize = 101;

const HEADING: [&str; 5] = [
    "write_mesh, the tables of one mesh with 10000 coordinates, 32000 vertices and one submesh of",
    "128000 points into one buffer for both sides, exactly as long as needed, warm and not cleared",
    "between runs; the time has the judging of the tables; rust is the same algorithm in plain",
    "Rust (bench/src/mesh_box.rs), which gave the same box before; medians of the runs,",
    "ratio = ours / rust",
];

pub fn table() -> Result<(), String> {
    println!();
    for line in HEADING {
        println!("{line}");
    }
    println!(
        "{:<14} {:>8} {:>4} {:>8} {:>8} {:>9} {:>9} {:>6}",
        "mesh", "bytes", "runs", "rust_us", "ours_us", "rust_ns/B", "ours_ns/B", "ratio"
    );
    row("small steps", Steps::Small)?;
    row("random steps", Steps::Random)
}

/// Runs one side once on one of the two meshes.
pub fn once(side: &str, steps: &str) -> Result<(), String> {
    let steps = match steps {
        "small" => Steps::Small,
        "random" => Steps::Random,
        _ => return Err(format!("no steps {steps}")),
    };
    let tables = Tables::from(&large(steps, 1));
    let mut out = buffer(&tables).ok_or("not measured".to_string())?;
    let size = counted(side, &tables, &mut out);
    println!("{side} writer: {size:?} bytes");
    Ok(())
}

/// Under a name of its own, for an instruction counter to start and stop at.
#[inline(never)]
fn counted(side: &str, tables: &Tables, out: &mut [u8]) -> Option<usize> {
    match side {
        "rust" => rust(tables, out),
        "ours" => ours(tables, out),
        _ => None,
    }
}

fn row(name: &str, steps: Steps) -> Result<(), String> {
    let tables = Tables::from(&large(steps, 1));
    let mut out = buffer(&tables).ok_or(format!("not measured: {name}"))?;
    let mut theirs = vec![0xFF; out.len()];
    let size = rust(&tables, &mut theirs);
    if size.is_none() || size != ours(&tables, &mut out) || theirs != out {
        return Err(format!("the boxes differ: {name}"));
    }
    let bytes = out.len();
    let (rust, ours) = medians(
        RUNS,
        out,
        |out| rust(black_box(&tables), out),
        |out| ours(black_box(&tables), out),
    );
    let per_byte = |time: f64| time / bytes as f64;
    println!(
        "{name:<14} {bytes:>8} {RUNS:>4} {:>8.1} {:>8.1} {:>9.3} {:>9.3} {:>6.3}",
        rust / 1e3,
        ours / 1e3,
        per_byte(rust),
        per_byte(ours),
        ours / rust
    );
    Ok(())
}

/// A buffer exactly as long as we need.
fn buffer(tables: &Tables) -> Option<Vec<u8>> {
    let mut words = [0];
    let code = call(tables, &mut [], &mut words);
    (code == hoodsorrel::raw::NEEDS).then(|| vec![0; words[0] as usize])
}

/// The size of the box.
fn rust(tables: &Tables, out: &mut [u8]) -> Option<usize> {
    write_mesh(tables, out).ok()
}

/// The size of the box.
fn ours(tables: &Tables, out: &mut [u8]) -> Option<usize> {
    let mut words = [0];
    (call(tables, out, &mut words) == 1).then_some(words[0] as usize)
}

fn call(tables: &Tables, out: &mut [u8], words: &mut [u64]) -> i64 {
    hoodsorrel::raw::write_mesh(
        &tables.pool,
        &tables.coordinates,
        &tables.submeshes,
        &tables.points,
        out,
        words,
    )
}
