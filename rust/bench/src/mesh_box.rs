//! The mesh writer in plain Rust, with the library's algorithm: the tables are judged first, then
//! their fields go through 64 bits into a lent buffer, four bytes at a time.

use std::mem::take;
use std::ops::RangeInclusive;

use spell::{Tables, FIELDS, MESH, ROW};

const COORDINATES: RangeInclusive<usize> = 1..=10_000;
const VERTICES: RangeInclusive<usize> = 1..=32_000;
const POINTS: RangeInclusive<usize> = 1..=128_000;
const LONGEST: usize = 67_108_864;
const HEADER: usize = 8;
const ROW_BITS: usize = 8 + 8 + 32;

#[derive(Debug, PartialEq)]
pub enum Refusal {
    NoMesh,
    /// The buffer is shorter than this.
    Needs(usize),
}

/// Writes the box of four tables at the front of a buffer and gives its size.
pub fn write_mesh(tables: &Tables, out: &mut [u8]) -> Result<usize, Refusal> {
    let size = judge(tables).ok_or(Refusal::NoMesh)?;
    let out = out.get_mut(..size).ok_or(Refusal::Needs(size))?;
    put_box(tables, BitWriter::new(out));
    Ok(size)
}

/// The size of the box, if the tables are a mesh of finite words and it is not too long.
fn judge(tables: &Tables) -> Option<usize> {
    let [pool, numbers, words, points] = tables.lengths();
    let vertices = tables.vertices();
    let is_mesh = COORDINATES.contains(&pool)
        && VERTICES.contains(&vertices)
        && numbers % FIELDS == 0
        && words != 0
        && words % ROW == 0
        && counted(&tables.submeshes)? == points
        && all_below(&tables.coordinates, pool)
        && all_below(&tables.points, vertices)
        && all_finite(&tables.pool);
    is_mesh
        .then(|| box_size(pool, vertices, words / ROW, points))
        .filter(|&size| size <= LONGEST)
}

fn all_finite(pool: &[u32]) -> bool {
    pool.iter().all(|&word| f32::from_bits(word).is_finite())
}

/// The points of rows that are within the limits.
fn counted(rows: &[u32]) -> Option<usize> {
    rows.chunks_exact(ROW).try_fold(0, |sum, row| {
        let (texture, mode, count) = (row[0], row[1], row[2] as usize);
        let within = texture <= 255 && mode <= 255 && POINTS.contains(&count);
        within.then_some(sum + count)
    })
}

fn all_below(numbers: &[u16], limit: usize) -> bool {
    let highest = numbers.iter().copied().max();
    highest.is_none_or(|number| usize::from(number) < limit)
}

fn box_size(pool: usize, vertices: usize, submeshes: usize, points: usize) -> usize {
    let head = HEADER + 4 + 4 * pool + 4;
    let vertex_bits = FIELDS * vertices * width(pool) as usize;
    let submesh_bits = submeshes * ROW_BITS + points * width(vertices) as usize;
    head + vertex_bits.div_ceil(8) + 4 + submesh_bits.div_ceil(8)
}

/// The least w with 2^w at least 2 × count, which is not 0.
fn width(count: usize) -> u32 {
    (2 * count - 1).ilog2() + 1
}

fn put_box(tables: &Tables, mut to: BitWriter) {
    let size = to.out.len();
    let vertices = tables.vertices();
    to.put(32, size as u32);
    to.put(32, u32::from_be_bytes(MESH));
    to.put(32, tables.pool.len() as u32);
    for &word in &tables.pool {
        to.put(32, word);
    }
    to.put(32, vertices as u32);
    put_run::<FIELDS>(&mut to, width(tables.pool.len()), &tables.coordinates);
    to.align();
    to.put(32, (tables.submeshes.len() / ROW) as u32);
    let mut points = &tables.points[..];
    for row in tables.submeshes.chunks_exact(ROW) {
        let (own, rest) = points.split_at(row[2] as usize);
        to.put(8, row[0]);
        to.put(8, row[1]);
        to.put(32, row[2]);
        put_run::<1>(&mut to, width(vertices), own);
        points = rest;
    }
    to.finish();
}

/// A run with so many running numbers, which take turns.
fn put_run<const N: usize>(to: &mut BitWriter, width: u32, numbers: &[u16]) {
    let mut last = [0; N];
    for numbers in numbers.chunks_exact(N) {
        for (last, &number) in last.iter_mut().zip(numbers) {
            to.put(width, zigzag(i32::from(number) - i32::from(*last)));
            *last = number;
        }
    }
}

fn zigzag(step: i32) -> u32 {
    (step << 1 ^ step >> 31) as u32
}

/// Fewer than 32 bits wait, the low ones of `held`.
struct BitWriter<'a> {
    /// What is not written yet.
    out: &'a mut [u8],
    held: u64,
    bits: u32,
}

impl<'a> BitWriter<'a> {
    fn new(out: &'a mut [u8]) -> BitWriter<'a> {
        BitWriter {
            out,
            held: 0,
            bits: 0,
        }
    }

    /// A value of up to 32 bits.
    #[inline]
    fn put(&mut self, width: u32, value: u32) {
        self.held = self.held << width | u64::from(value);
        self.bits += width;
        if self.bits >= 32 {
            self.bits -= 32;
            let word = (self.held >> self.bits) as u32;
            if let Some((four, rest)) = take(&mut self.out).split_first_chunk_mut() {
                *four = word.to_be_bytes();
                self.out = rest;
            }
        }
    }

    fn align(&mut self) {
        self.put(self.bits.wrapping_neg() % 8, 0);
    }

    /// The bits that still wait, with zeros up to a whole byte.
    fn finish(mut self) {
        self.align();
        let bytes = (self.held << (32 - self.bits)) as u32;
        let rest = self.out.len();
        self.out.copy_from_slice(&bytes.to_be_bytes()[..rest]);
    }
}
