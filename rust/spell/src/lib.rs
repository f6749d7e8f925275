//! Spells payloads of kind 2 from descriptions, right ones and wrong ones.

mod bits;
mod headers;
mod tables;

pub use bits::{overwrite, read_word, BitWriter};
pub use headers::{header, long_header, Size};
pub use tables::{Tables, ROW};

pub const MESH: [u8; 4] = *b"mesh";
/// Coordinate numbers to a vertex.
pub const FIELDS: usize = 5;

#[derive(Clone)]
pub struct Submesh {
    pub texture: u8,
    pub mode: u8,
    /// Vertex numbers. One may leave the vertices.
    pub points: Vec<i64>,
}

#[derive(Clone)]
pub struct Mesh {
    pub pool: Vec<u32>,
    /// Five to a vertex. One may leave the pool.
    pub coordinates: Vec<i64>,
    pub submeshes: Vec<Submesh>,
    /// Each free bit is the bit of this byte that has its place.
    pub free: u8,
    /// Free bytes behind the last field.
    pub rest: Vec<u8>,
}

impl Mesh {
    pub fn vertices(&self) -> usize {
        self.coordinates.len() / FIELDS
    }
}

#[derive(Clone)]
pub enum Part {
    Mesh(Mesh),
    /// A box of any type, and its body.
    Other([u8; 4], Vec<u8>),
}

/// Bytes, and the places in bits of the words in them that decide over lengths.
#[derive(Clone, Default)]
pub struct Spelled {
    pub bytes: Vec<u8>,
    /// Where the boxes begin, with their sizes of 4 bytes.
    pub sizes: Vec<usize>,
    /// The sizes of 8 bytes.
    pub long_sizes: Vec<usize>,
    pub counts: Vec<usize>,
}

impl Spelled {
    pub fn push(&mut self, part: &Part, size: Size) {
        match part {
            Part::Mesh(mesh) => self.push_box(MESH, &body(mesh), size),
            Part::Other(box_type, bytes) => {
                let body = Spelled {
                    bytes: bytes.clone(),
                    ..Spelled::default()
                };
                self.push_box(*box_type, &body, size);
            }
        }
    }

    pub fn push_box(&mut self, box_type: [u8; 4], body: &Spelled, size: Size) {
        let start = 8 * self.bytes.len();
        self.sizes.push(start);
        if size == Size::Long {
            self.long_sizes.push(start + 8 * Size::Short.header());
        }
        self.bytes.extend(header(box_type, body.bytes.len(), size));
        let start = 8 * self.bytes.len();
        self.counts
            .extend(body.counts.iter().map(|place| start + place));
        self.bytes.extend(&body.bytes);
    }
}

/// The least w with 2^w at least 2 × count.
pub fn field_width(count: usize) -> u32 {
    (0..)
        .find(|w| 1u64 << w >= 2 * count as u64)
        .expect("a count has fewer than 63 bits")
}

pub fn body(mesh: &Mesh) -> Spelled {
    let mut out = BitWriter::default();
    let mut counts = Vec::new();
    put_count(&mut out, &mut counts, mesh.pool.len());
    for &word in &mesh.pool {
        out.put(word, 32);
    }
    put_count(&mut out, &mut counts, mesh.vertices());
    let width = field_width(mesh.pool.len());
    let mut last = [0; FIELDS];
    for vertex in mesh.coordinates.chunks_exact(FIELDS) {
        for (last, &number) in last.iter_mut().zip(vertex) {
            out.put(zigzag(number - *last), width);
            *last = number;
        }
    }
    out.align(mesh.free);
    put_count(&mut out, &mut counts, mesh.submeshes.len());
    for submesh in &mesh.submeshes {
        put_submesh(&mut out, &mut counts, submesh, field_width(mesh.vertices()));
    }
    out.align(mesh.free);
    let mut bytes = out.into_bytes();
    bytes.extend(&mesh.rest);
    Spelled {
        bytes,
        counts,
        ..Spelled::default()
    }
}

fn put_submesh(out: &mut BitWriter, counts: &mut Vec<usize>, submesh: &Submesh, width: u32) {
    out.put(submesh.texture.into(), 8);
    out.put(submesh.mode.into(), 8);
    put_count(out, counts, submesh.points.len());
    let mut last = 0;
    for &point in &submesh.points {
        out.put(zigzag(point - last), width);
        last = point;
    }
}

fn put_count(out: &mut BitWriter, counts: &mut Vec<usize>, count: usize) {
    counts.push(out.place());
    out.put(count as u32, 32);
}

/// The field that means `step`. The writer drops what is too high for its width.
fn zigzag(step: i64) -> u32 {
    if step >= 0 {
        (2 * step) as u32
    } else {
        (-2 * step - 1) as u32
    }
}
