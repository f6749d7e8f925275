//! Mesh lists to time: of one mesh or of two.

use spell::{Mesh, Part, Size, Spelled, Submesh, FIELDS};

use crate::random::Random;

/// How far a running number moves at once.
#[derive(Clone, Copy)]
pub enum Steps {
    Small,
    Random,
}

/// The largest counts that a mesh can have.
pub fn large(steps: Steps, submeshes: usize) -> Mesh {
    mesh(steps, [10_000, 32_000, submeshes, 128_000])
}

/// One submesh, of as many points as are asked at once.
pub fn small() -> Mesh {
    mesh(Steps::Random, [40, 64, 1, 256])
}

pub fn tiny() -> Mesh {
    mesh(Steps::Random, [4, 6, 1, 12])
}

fn mesh(steps: Steps, [coordinates, vertices, submeshes, points]: [usize; 4]) -> Mesh {
    let mut random = Random::new();
    let columns = [(); FIELDS].map(|()| numbers(&mut random, steps, vertices, coordinates));
    let mut interleaved = Vec::with_capacity(FIELDS * vertices);
    for vertex in 0..vertices {
        interleaved.extend(columns.iter().map(|column| column[vertex]));
    }
    let submeshes = (0..submeshes).map(|texture| Submesh {
        texture: texture as u8,
        mode: 0,
        points: numbers(&mut random, steps, points, vertices),
    });
    Mesh {
        submeshes: submeshes.collect(),
        pool: (0..coordinates as u32).map(|k| k << 16).collect(),
        coordinates: interleaved,
        free: 0,
        rest: Vec::new(),
    }
}

fn numbers(random: &mut Random, steps: Steps, count: usize, limit: usize) -> Vec<i64> {
    let limit = limit as i64;
    match steps {
        Steps::Small => up_and_down(random, count, limit),
        Steps::Random => (0..count).map(|_| random.below(limit)).collect(),
    }
}

fn up_and_down(random: &mut Random, count: usize, limit: i64) -> Vec<i64> {
    let (mut number, mut direction) = (0, 1);
    let mut numbers = Vec::with_capacity(count);
    for _ in 0..count {
        let next = number + direction * random.below(5);
        if (0..limit).contains(&next) {
            number = next;
        } else {
            direction = -direction;
        }
        numbers.push(number);
    }
    numbers
}

/// The list of a mesh alone.
pub fn lone(mesh: Mesh) -> Vec<u8> {
    let mut one = Spelled::default();
    one.push(&Part::Mesh(mesh), Size::Short);
    one.bytes
}

/// The list of a mesh for each eye, both the same.
pub fn pair(mesh: Mesh) -> Vec<u8> {
    lone(mesh).repeat(2)
}

/// A large mesh with as many submeshes as fit into so many bytes.
pub fn filled(most: usize) -> Vec<u8> {
    let [one, two] = [1, 2].map(|submeshes| lone(large(Steps::Small, submeshes)).len());
    lone(large(Steps::Small, 1 + (most - one) / (two - one)))
}
