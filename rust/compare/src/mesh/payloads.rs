//! Descriptions of meshes and of mesh lists: small random ones, and some with large counts.

use std::iter;

use spell::{header, Mesh, Part, Size, Spelled, Submesh, FIELDS, MESH};

use crate::inputs::payloads::LONGEST;
use crate::inputs::random::Random;
use crate::mesh::model::finite;
use crate::mesh::words::FINITE;

/// Types of boxes that are skipped.
const OTHERS: [[u8; 4]; 7] = [
    *b"free",
    *b"mesi",
    *b"nesh",
    *b"MESH",
    *b"mdat",
    *b"\0\0\0\0",
    *b"hsem",
];

pub const BOTH_SIZES: [Size; 2] = [Size::Short, Size::Long];

#[derive(Clone)]
pub struct List {
    pub parts: Vec<Part>,
    /// One for each part.
    pub sizes: Vec<Size>,
    /// Bytes behind the last box.
    pub rest: Vec<u8>,
}

impl List {
    /// These boxes, all with this size, and nothing behind them.
    pub fn of(parts: Vec<Part>, size: Size) -> List {
        List {
            sizes: vec![size; parts.len()],
            parts,
            rest: Vec::new(),
        }
    }

    pub fn spelled(&self) -> Spelled {
        assert_eq!(self.parts.len(), self.sizes.len());
        let mut spelled = Spelled::default();
        for (part, size) in iter::zip(&self.parts, &self.sizes) {
            spelled.push(part, *size);
        }
        spelled.bytes.extend(&self.rest);
        spelled
    }

    /// The list with every choice of sizes.
    pub fn every_spelling(&self) -> impl Iterator<Item = Vec<u8>> + '_ {
        (0..1 << self.parts.len()).map(|choice: usize| {
            let size = |place| BOTH_SIZES[choice >> place & 1];
            let sizes = (0..self.parts.len()).map(size).collect();
            let List { parts, rest, .. } = self.clone();
            List { parts, sizes, rest }.spelled().bytes
        })
    }

    /// Up to four boxes, of which at most two are meshes. In every second list all sizes are short.
    pub fn random(random: &mut Random) -> List {
        let boxes = random.pick(&[0, 1, 1, 1, 1, 1, 2, 2, 2, 3, 4]);
        let mut parts = Vec::new();
        let mut meshes = 0;
        for _ in 0..boxes {
            if meshes < 2 && random.below(5) > 0 {
                parts.push(Part::Mesh(mesh(random)));
                meshes += 1;
            } else {
                parts.push(skipped(random));
            }
        }
        let kinds = 1 + random.below(2);
        let sizes = (0..boxes).map(|_| random.pick(&BOTH_SIZES[..kinds]));
        let sizes = sizes.collect();
        let n = random.pick(&[0, 0, 1, 2, 3, 4, 5, 6, 7]);
        let rest = free_bytes(random, n);
        List { parts, sizes, rest }
    }

    /// The same, but with a third mesh.
    pub fn crowded(random: &mut Random) -> List {
        let mut list = List::random(random);
        let is_mesh = |part: &&Part| matches!(part, Part::Mesh(_));
        let meshes = list.parts.iter().filter(is_mesh).count();
        for _ in meshes..3 {
            let place = random.below(list.parts.len() + 1);
            list.parts.insert(place, Part::Mesh(mesh(random)));
            list.sizes.insert(place, any_size(random));
        }
        list
    }
}

pub fn any_size(random: &mut Random) -> Size {
    random.pick(&BOTH_SIZES)
}

/// A box that is skipped. Its body is that of a mesh, or any bytes.
pub fn skipped(random: &mut Random) -> Part {
    let box_type = random.pick(&OTHERS);
    let body = match random.below(3) {
        0 => spell::body(&mesh(random)).bytes,
        _ => {
            let n = random.below(20);
            random.bytes(n)
        }
    };
    Part::Other(box_type, body)
}

/// A list of one mesh and nothing else.
pub fn lone(mesh: &Mesh) -> Vec<u8> {
    lone_of(mesh, Size::Short)
}

/// The same with this size.
pub fn lone_of(mesh: &Mesh, size: Size) -> Vec<u8> {
    let mut spelled = Spelled::default();
    spelled.push_box(MESH, &spell::body(mesh), size);
    spelled.bytes
}

/// A small mesh.
pub fn mesh(random: &mut Random) -> Mesh {
    let (pool, vertices) = (small_count(random), small_count(random));
    let submeshes = random.pick(&[1, 1, 2, 2, 3, 4, 9]);
    let points: Vec<usize> = (0..submeshes)
        .map(|_| random.pick(&[1, 1, 2, 3, 3, 4, 6, 7, 12]))
        .collect();
    sized(random, pool, vertices, &points)
}

/// A mesh of these counts.
pub fn sized(random: &mut Random, pool: usize, vertices: usize, points: &[usize]) -> Mesh {
    let rest = random.pick(&[0, 0, 0, 1, 2, 9]);
    Mesh {
        pool: (0..pool).map(|_| word(random)).collect(),
        coordinates: numbers(random, FIELDS * vertices, pool),
        submeshes: points
            .iter()
            .map(|&n| submesh(random, n, vertices))
            .collect(),
        free: random.pick(&[0, 0, 0xFF, 0xFF, 0x55, 0xAA]),
        rest: free_bytes(random, rest),
    }
}

fn submesh(random: &mut Random, points: usize, vertices: usize) -> Submesh {
    Submesh {
        texture: random.word() as u8,
        mode: random.word() as u8,
        points: numbers(random, points, vertices),
    }
}

/// Numbers below a limit, the lowest and the highest more often than others.
fn numbers(random: &mut Random, n: usize, limit: usize) -> Vec<i64> {
    let number = |_| match random.below(4) {
        0 => 0,
        1 => limit as i64 - 1,
        _ => random.below(limit) as i64,
    };
    (0..n).map(number).collect()
}

/// A finite word.
fn word(random: &mut Random) -> u32 {
    if random.below(2) == 0 {
        return random.pick(&FINITE);
    }
    let word = random.word();
    if finite(word) {
        word
    } else {
        // An exponent that is one less.
        word ^ 0x0080_0000
    }
}

/// Mostly very few, now and then around a power of two.
fn small_count(random: &mut Random) -> usize {
    match random.below(32) {
        0..=22 => 1 + random.below(6),
        23..=28 => random.pick(&[7, 8, 9, 15, 16, 17]),
        29..=30 => random.pick(&[31, 32, 33]),
        _ => random.pick(&[63, 64, 65]),
    }
}

/// Bytes that are all 0, all 0xFF or random.
fn free_bytes(random: &mut Random, n: usize) -> Vec<u8> {
    match random.below(3) {
        0 => vec![0; n],
        1 => vec![0xFF; n],
        _ => random.bytes(n),
    }
}

/// Document 01's m1.
pub fn m1() -> Mesh {
    Mesh {
        pool: vec![0, 0x3F80_0000],
        coordinates: vec![0, 0, 0, 0, 0, 1, 0, 0, 1, 0, 0, 1, 0, 0, 1],
        submeshes: vec![Submesh {
            texture: 0,
            mode: 0,
            points: vec![0, 1, 2],
        }],
        free: 0,
        rest: Vec::new(),
    }
}

/// One coordinate, three vertices, and one submesh with the points 2, 0, 1 and 1: none is the vertex of its own number.
pub const TURNED: [u8; 34] = [
    0, 0, 0, 34, b'm', b'e', b's', b'h', 0, 0, 0, 1, 0x3F, 0, 0, 0, 0, 0, 0, 3, 0, 0, 0, 0, 0, 1,
    7, 0, 0, 0, 0, 4, 0x8D, 0,
];

/// Lists that are as long as a payload may be. They begin with these bytes, then comes the mesh: with a box to be
/// skipped behind it, and in a box of all bytes that are left, the last of either with this size.
pub fn longest_of(before: &[u8], mesh: &Mesh, size: Size) -> [Vec<u8>; 2] {
    let boxed = [before, &lone(mesh)].concat();
    [
        [&boxed[..], &longest_header(&boxed, *b"free", size)].concat(),
        [
            before,
            &longest_header(before, MESH, size),
            &spell::body(mesh).bytes,
        ]
        .concat(),
    ]
    .map(|mut list| {
        list.resize(LONGEST, 0);
        list
    })
}

/// The header of a box that takes all bytes that a payload may have behind these.
fn longest_header(before: &[u8], box_type: [u8; 4], size: Size) -> Vec<u8> {
    header(box_type, LONGEST - before.len() - size.header(), size)
}

/// Counts of coordinates, of vertices and of the points of each submesh.
pub type Counts = (usize, usize, Vec<usize>);

/// Around each power of two and around each limit, the others small.
pub fn large_counts() -> Vec<Counts> {
    let mut counts = Vec::new();
    for n in around_powers(10_000) {
        counts.push((n, 3, vec![4, 1]));
    }
    for m in around_powers(32_000) {
        counts.push((2, m, vec![5, 3]));
    }
    for n in [127_999, 128_000, 128_001] {
        counts.push((1, 1, vec![n]));
        counts.push((3, 3, vec![2, n, 2]));
    }
    counts.push((4, 5, vec![128_000, 128_000]));
    for submeshes in [255, 256, 257, 65_535, 65_536, 65_537] {
        counts.push((1, 1, vec![1; submeshes]));
    }
    counts
}

/// Around each power of two up to the limit, and around the limit.
fn around_powers(limit: usize) -> impl Iterator<Item = usize> {
    (1..)
        .map(|power| 1usize << power)
        .take_while(move |n| *n < limit)
        .chain([limit])
        .flat_map(|n| [n - 1, n, n + 1])
}
