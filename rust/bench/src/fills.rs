//! Microseconds per call of the makers of indices and vertices on one buffer.

use std::hint::black_box;

use hoodsorrel::raw::Crop;
use reference::pano::{self, Bounds, VERTEX_FLOATS};

use crate::timing::medians;

const RUNS: usize = 101;
const CELLS: u32 = 103;
const RADIUS: f32 = 1.0;
const PADDING: f32 = 0.01;
const RINGS: u32 = 255;
const SECTORS: u32 = 255;
const CROPS: [(&str, Crop); 2] = [
    ("sphere_indices_bounded 255 255 FULL", [0.0; 4]),
    (
        "sphere_indices_bounded 255 255 cropped",
        [0.125, 0.125, 0.0, 0.0],
    ),
];

pub fn table() -> Result<(), String> {
    println!();
    println!(
        "one buffer for both sides, exactly as long as needed, warm and not cleared between runs;"
    );
    println!("medians of {RUNS} runs, ratio = ours / rust");
    println!(
        "{:<38} {:>7} {:>8} {:>8} {:>6}",
        "call", "items", "rust_us", "ours_us", "ratio"
    );
    let floats = VERTEX_FLOATS * pano::cubemap_vertex_count(CELLS);
    row(
        "cubemap_mesh 103 1.0 0.01",
        vec![0; floats],
        rust_mesh,
        our_mesh,
    )?;
    let name = "cubemap_indices 103";
    let count = pano::cubemap_index_count(CELLS);
    row(name, vec![0; count], rust_cube, our_cube)?;
    let name = "sphere_indices 255 255";
    let count = indices([0.0; 4]);
    row(name, vec![0; count], rust_sphere, our_sphere)?;
    for (name, crop) in CROPS {
        row(
            name,
            vec![0; indices(crop)],
            |out| rust_indices(crop, out),
            |out| our_indices(crop, out),
        )?;
    }
    Ok(())
}

/// How many indices a crop of the grid has.
fn indices([top, bottom, ..]: Crop) -> usize {
    let poles = usize::from(top == 0.0) + usize::from(bottom == 0.0);
    pano::index_count(RINGS, SECTORS) - 3 * SECTORS as usize * poles
}

/// Times two sides that answer how many items they made.
fn row<T: Copy + PartialEq>(
    name: &str,
    mut out: Vec<T>,
    rust: impl Fn(&mut [T]) -> Option<u64>,
    ours: impl Fn(&mut [T]) -> Option<u64>,
) -> Result<(), String> {
    let mut theirs = out.clone();
    let made = rust(&mut theirs);
    if made.is_none() || made != ours(&mut out) || theirs != out {
        return Err(format!("the answers differ: {name}"));
    }
    let items = out.len();
    let (rust, ours) = medians(RUNS, out, |out| rust(out), |out| ours(out));
    let (rust, ours) = (rust / 1000.0, ours / 1000.0);
    println!(
        "{name:<38} {items:>7} {rust:>8.1} {ours:>8.1} {:>6.3}",
        ours / rust
    );
    Ok(())
}

fn rust_mesh(out: &mut [u32]) -> Option<u64> {
    // SAFETY: both types have the same size and alignment, and each takes any bits.
    let (_, floats, _) = unsafe { out.align_to_mut() };
    let made = pano::cubemap_mesh(
        black_box(CELLS),
        black_box(RADIUS),
        black_box(PADDING),
        floats,
    );
    made.map(|n| n as u64)
}

fn our_mesh(out: &mut [u32]) -> Option<u64> {
    let mut words = [0];
    let code = hoodsorrel::raw::cubemap_mesh(
        black_box(CELLS),
        black_box(RADIUS),
        black_box(PADDING),
        out,
        &mut words,
    );
    (code == 1).then_some(words[0])
}

fn rust_cube(out: &mut [u16]) -> Option<u64> {
    pano::cubemap_indices(black_box(CELLS), out).map(|n| n as u64)
}

fn our_cube(out: &mut [u16]) -> Option<u64> {
    let mut words = [0];
    let code = hoodsorrel::raw::cubemap_indices(black_box(CELLS), out, &mut words);
    (code == 1).then_some(words[0])
}

fn rust_sphere(out: &mut [u16]) -> Option<u64> {
    pano::sphere_indices(black_box(RINGS), black_box(SECTORS), out).map(|n| n as u64)
}

fn our_sphere(out: &mut [u16]) -> Option<u64> {
    let mut words = [0];
    let code =
        hoodsorrel::raw::sphere_indices(black_box(RINGS), black_box(SECTORS), out, &mut words);
    (code == 1).then_some(words[0])
}

fn rust_indices(crop: Crop, out: &mut [u16]) -> Option<u64> {
    let [top, bottom, left, right] = black_box(crop);
    let bounds = Bounds {
        top,
        bottom,
        left,
        right,
    };
    let made = pano::sphere_indices_bounded(black_box(RINGS), black_box(SECTORS), bounds, out);
    made.map(|n| n as u64)
}

fn our_indices(crop: Crop, out: &mut [u16]) -> Option<u64> {
    let mut words = [0];
    let code = hoodsorrel::raw::sphere_indices_bounded(
        black_box(RINGS),
        black_box(SECTORS),
        black_box(crop),
        out,
        &mut words,
    );
    (code == 1).then_some(words[0])
}
