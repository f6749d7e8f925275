//! Times of whole scene calls of kinds 0 and 1.

use std::hint::black_box;

use hoodsorrel::Given;
use reference::mesh::{self, Spherical};
use reference::pano::{self, VERTEX_FLOATS};

use crate::timing::medians;

const RUNS: usize = 101;
const RINGS: u32 = 255;
const SECTORS: u32 = 255;
const CELLS: u32 = 103;
const RADIUS: f32 = 1.0;
const FACE: u32 = 1024;
const PADDING: u32 = 10;
const EIGHTH: u32 = 0x2000_0000;

const GIVEN: Given = Given {
    rings: RINGS,
    sectors: SECTORS,
    cells: CELLS,
    radius: RADIUS,
    face_width: FACE,
};

const HEADING: [&str; 5] = [
    "scene, both sides with buffers exactly as long as needed, warm and not cleared between runs;",
    "rust is parse_equi, sphere_indices_bounded and sphere_mesh_bounded, which makes x, y and z too,",
    "or a loop of plain Rust for u and v alone; for kind 1 parse_cbmp, cubemap_indices and",
    "cubemap_mesh with p / F; none of these allocates; both sides gave the same drawing before;",
    "medians of the runs, ratio = ours / rust",
];

/// One buffer of numbers for both sides; `floats` is ours, `mesh` the Rust's.
struct Buffers {
    numbers: Vec<u16>,
    floats: Vec<u32>,
    mesh: Vec<f32>,
}

/// The Rust's side, which answers the number of indices, and the floats that it makes of a vertex.
/// Ours are the last of these.
type Rust = (fn(&[u8], &mut Buffers) -> Option<usize>, usize);

const SPHERE: Rust = (rust_sphere, VERTEX_FLOATS);
const UVS: Rust = (rust_uvs, 2);
const CUBE: Rust = (rust_cube, VERTEX_FLOATS);

pub fn table() -> Result<(), String> {
    println!();
    for line in HEADING {
        println!("{line}");
    }
    println!(
        "{:<36} {:>7} {:>7} {:>4} {:>8} {:>8} {:>6}",
        "call", "numbers", "floats", "runs", "rust_us", "ours_us", "ratio"
    );
    for (name, fields) in [
        ("0, 255 255 FULL", [0; 4]),
        ("0, 255 255 cropped", [EIGHTH, EIGHTH, 0, 0]),
    ] {
        let payload = bytes(&[&[0][..], &fields].concat());
        row(name, 0, &payload, SPHERE)?;
        row(&format!("{name}, u and v alone"), 0, &payload, UVS)?;
    }
    let payload = bytes(&[0, 0, PADDING]);
    row("1, 103 cells, padding 10 of 1024", 1, &payload, CUBE)
}

fn bytes(words: &[u32]) -> Vec<u8> {
    words.iter().flat_map(|word| word.to_be_bytes()).collect()
}

fn row(name: &str, kind: u32, payload: &[u8], rust: Rust) -> Result<(), String> {
    let mut buffers = needed(kind, payload, rust).ok_or(format!("not measured: {name}"))?;
    if !same(kind, payload, &mut buffers, rust) {
        return Err(format!("the drawings differ: {name}"));
    }
    let (numbers, floats) = (buffers.numbers.len(), buffers.floats.len());
    let (rust, ours) = medians(
        RUNS,
        buffers,
        |buffers| rust.0(black_box(payload), buffers),
        |buffers| ours(black_box(kind), black_box(payload), buffers),
    );
    println!(
        "{name:<36} {numbers:>7} {floats:>7} {RUNS:>4} {:>8.1} {:>8.1} {:>6.3}",
        rust / 1e3,
        ours / 1e3,
        ours / rust
    );
    Ok(())
}

/// Buffers as long as each side needs.
fn needed(kind: u32, payload: &[u8], (_, floats_each): Rust) -> Option<Buffers> {
    let mut words = [0; 8];
    let code = call(kind, payload, &mut [], &mut [], &mut words);
    let [numbers, floats, ..] = words.map(|n| n as usize);
    let vertices = match kind {
        0 => pano::vertex_count(RINGS, SECTORS),
        _ => pano::cubemap_vertex_count(CELLS),
    };
    (code == hoodsorrel::raw::NEEDS).then(|| Buffers {
        numbers: vec![0; numbers],
        floats: vec![0; floats],
        mesh: vec![0.0; floats_each * vertices],
    })
}

/// Whether both sides draw the same.
fn same(kind: u32, payload: &[u8], buffers: &mut Buffers, (rust, floats_each): Rust) -> bool {
    if rust(payload, buffers).is_none() {
        return false;
    }
    let numbers = buffers.numbers.clone();
    let vertices = buffers.mesh.len() / floats_each;
    let left_out = floats_each - buffers.floats.len() / vertices;
    let floats: Vec<u32> = buffers
        .mesh
        .chunks_exact(floats_each)
        .flat_map(|vertex| vertex[left_out..].iter().map(|x| x.to_bits()))
        .collect();
    buffers.numbers.fill(0);
    ours(kind, payload, buffers).is_some() && numbers == buffers.numbers && floats == buffers.floats
}

/// The number of indices.
fn ours(kind: u32, payload: &[u8], buffers: &mut Buffers) -> Option<usize> {
    let mut words = [0; 8];
    let Buffers {
        numbers, floats, ..
    } = buffers;
    let code = call(kind, payload, numbers, floats, &mut words);
    (code == 8).then_some(words[5] as usize)
}

fn call(
    kind: u32,
    payload: &[u8],
    numbers: &mut [u16],
    floats: &mut [u32],
    words: &mut [u64],
) -> i64 {
    let given = black_box(GIVEN);
    hoodsorrel::raw::scene(kind, payload, given, numbers, floats, &mut [], words)
}

fn rust_sphere(payload: &[u8], buffers: &mut Buffers) -> Option<usize> {
    let given = black_box(GIVEN);
    let (rings, sectors) = (given.rings, given.sectors);
    let crop = mesh::parse_equi(payload)?;
    pano::sphere_mesh_bounded(rings, sectors, given.radius, crop, &mut buffers.mesh)?;
    pano::sphere_indices_bounded(rings, sectors, crop, &mut buffers.numbers)
}

fn rust_uvs(payload: &[u8], buffers: &mut Buffers) -> Option<usize> {
    let given = black_box(GIVEN);
    let (rings, sectors) = (given.rings, given.sectors);
    let crop = mesh::parse_equi(payload)?;
    put_uvs(rings, sectors, &mut buffers.mesh);
    pano::sphere_indices_bounded(rings, sectors, crop, &mut buffers.numbers)
}

fn put_uvs(rings: u32, sectors: u32, out: &mut [f32]) {
    let mut vertices = out.chunks_exact_mut(2);
    for ring in 0..=rings {
        let v = 1.0 - ring as f32 / rings as f32;
        for (sector, vertex) in (0..=sectors).zip(&mut vertices) {
            let u = sector as f32 / sectors as f32;
            vertex.copy_from_slice(&[u, v]);
        }
    }
}

fn rust_cube(payload: &[u8], buffers: &mut Buffers) -> Option<usize> {
    let given = black_box(GIVEN);
    let Spherical::Cubemap { padding, .. } = mesh::parse_cbmp(payload)? else {
        return None;
    };
    let share = padding as f32 / given.face_width as f32;
    pano::cubemap_mesh(given.cells, given.radius, share, &mut buffers.mesh)?;
    pano::cubemap_indices(given.cells, &mut buffers.numbers)
}
