//! Scenes for the tests of this crate.

use crate::scene::{Counts, Reading, Scene};
use crate::submeshes::POINT;

/// A triangle, by x, y, z, u and v of its points.
pub const TRIANGLE: [[f32; POINT]; 3] = [
    [-1.0, -1.0, -1.0, 0.0, 0.0],
    [1.0, -1.0, -1.0, 1.0, 0.0],
    [0.0, 1.0, -1.0, 0.5, 1.0],
];

/// A mesh with one submesh.
pub fn scene(mode: u32, points: &[[f32; POINT]]) -> Scene {
    Scene {
        reading: Reading::Meshes(Counts {
            meshes: 1,
            submeshes: 1,
            points: points.len() as u64,
        }),
        numbers: Vec::new(),
        floats: points.iter().flatten().copied().collect(),
        records: vec![0, 0, mode, 0, points.len() as u32],
        textures: vec![0, points.len() as u32],
    }
}
