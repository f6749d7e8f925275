//! Times of the calls that answer a part of what the Rust's readers make: the lengths, the records, one body's tables.

use std::hint::black_box;

use reference::mesh;

use crate::mesh_lists::{large, lone, Steps};
use crate::timing::medians;

const RUNS: usize = 15;
/// The words of the four records of the list.
const RECORDS: usize = 20;
/// The words of all textures.
const TEXTURES: usize = 512;
/// The bytes before a box's body.
const HEADER: usize = 8;

const HEADING: [&str; 4] = [
    "one large mesh of four submeshes, small steps; the Rust has no call for lengths, records or textures",
    "alone, and its side is parse_meshes; for parse_mesh both sides read the body, ours into four",
    "warm tables of exactly the needed lengths with its measuring pass, the Rust's into vectors of",
    "its own with the points followed to their five words; medians of the runs, ratio = ours / rust",
];

/// The four tables of a mesh.
struct Tables {
    pool: Vec<u32>,
    coordinates: Vec<u16>,
    submeshes: Vec<u32>,
    points: Vec<u16>,
}

pub fn table() -> Result<(), String> {
    println!();
    for line in HEADING {
        println!("{line}");
    }
    println!(
        "{:<18} {:>8} {:>4} {:>8} {:>8} {:>6}",
        "call", "bytes", "runs", "rust_ms", "ours_ms", "ratio"
    );
    let payload = lone(large(Steps::Small, 4));
    row("measure_meshes", &payload, (), rust_list, measured)?;
    row(
        "mesh_records",
        &payload,
        vec![0; RECORDS],
        rust_list,
        |payload, lent| recorded(payload, lent),
    )?;
    row(
        "texture_points",
        &payload,
        vec![0; TEXTURES],
        rust_list,
        |payload, lent| textured(payload, lent),
    )?;
    let body = &payload[HEADER..];
    let tables = needed(body).ok_or("not measured: parse_mesh")?;
    row("parse_mesh", body, tables, rust_body, tabled)
}

/// Times two sides that answer how many points there are.
fn row<D>(
    name: &str,
    payload: &[u8],
    mut lent: D,
    rust: impl Fn(&[u8]) -> Option<u64>,
    ours: impl Fn(&[u8], &mut D) -> Option<u64>,
) -> Result<(), String> {
    let due = rust(payload);
    if due.is_none() || due != ours(payload, &mut lent) {
        return Err(format!("the answers differ: {name}"));
    }
    let (rust, ours) = medians(
        RUNS,
        lent,
        |_| rust(black_box(payload)),
        |lent| ours(black_box(payload), lent),
    );
    println!(
        "{name:<18} {:>8} {RUNS:>4} {:>8.2} {:>8.2} {:>6.3}",
        payload.len(),
        rust / 1e6,
        ours / 1e6,
        ours / rust
    );
    Ok(())
}

fn rust_list(payload: &[u8]) -> Option<u64> {
    Some(mesh::parse_meshes(payload)?.iter().map(points).sum())
}

fn rust_body(body: &[u8]) -> Option<u64> {
    mesh::parse_mesh(body).as_ref().map(points)
}

fn points(mesh: &mesh::Mesh) -> u64 {
    let submeshes = mesh.submeshes.iter();
    submeshes.map(|submesh| submesh.vertex_count() as u64).sum()
}

fn measured(payload: &[u8], (): &mut ()) -> Option<u64> {
    let mut words = [0; 6];
    let code = hoodsorrel::raw::measure_meshes(payload, &mut words);
    (code == 6).then_some(words[2])
}

fn recorded(payload: &[u8], lent: &mut [u32]) -> Option<u64> {
    let mut words = [0; 3];
    let code = hoodsorrel::raw::mesh_records(payload, lent, &mut words);
    (code == 3).then_some(words[2])
}

fn textured(payload: &[u8], lent: &mut [u32]) -> Option<u64> {
    let mut words = [0];
    let code = hoodsorrel::raw::texture_points(payload, lent, &mut words);
    let textures = lent.chunks_exact(2).take(words[0] as usize);
    (code == 1).then(|| textures.map(|texture| u64::from(texture[1])).sum())
}

/// Tables of the lengths that are asked for on empty ones.
fn needed(body: &[u8]) -> Option<Tables> {
    let mut words = [0; 4];
    let code = hoodsorrel::raw::parse_mesh(body, &mut [], &mut [], &mut [], &mut [], &mut words);
    let [pool, coordinates, submeshes, points] = words.map(|n| n as usize);
    (code == hoodsorrel::raw::NEEDS).then(|| Tables {
        pool: vec![0; pool],
        coordinates: vec![0; coordinates],
        submeshes: vec![0; submeshes],
        points: vec![0; points],
    })
}

fn tabled(body: &[u8], lent: &mut Tables) -> Option<u64> {
    let mut words = [0; 4];
    let Tables {
        pool,
        coordinates,
        submeshes,
        points,
    } = lent;
    let code = hoodsorrel::raw::parse_mesh(body, pool, coordinates, submeshes, points, &mut words);
    (code == 4).then_some(words[3])
}
