//! The drawing of a mesh list: document 01's three lists, with document 02's eyes.

use reference::mesh::Projection;

use crate::mesh::model::{followed, Mesh};

const RECORD: usize = 5;
const POINT: usize = 5;

#[derive(Default, PartialEq)]
pub struct Drawing {
    meshes: usize,
    pub numbers: Vec<u16>,
    pub floats: Vec<u32>,
    pub records: Vec<u32>,
}

impl Drawing {
    pub fn of_model(meshes: &[Mesh]) -> Drawing {
        let mut drawing = Drawing::default();
        for (place, mesh) in meshes.iter().enumerate() {
            let eye = eye(place, meshes.len());
            drawing.numbers.extend(&mesh.coordinates);
            for submesh in &mesh.submeshes {
                let points = followed(&mesh.pool, &mesh.coordinates, &submesh.points);
                drawing.push(eye, submesh.texture, submesh.mode, points);
            }
            drawing.meshes += 1;
        }
        drawing
    }

    /// The Rust keeps no coordinate numbers. It says itself whether both eyes share a mesh.
    pub fn of_rust(projection: &Projection, numbers: Vec<u16>) -> Drawing {
        let mut drawing = Drawing {
            numbers,
            ..Drawing::default()
        };
        let first_eye = u32::from(!projection.single_mesh());
        for (eye, mesh) in (first_eye..).zip(&projection.meshes) {
            for submesh in &mesh.submeshes {
                let points = submesh.vertices.iter().map(|x| x.to_bits());
                drawing.push(eye, submesh.texture_id.into(), submesh.mode.into(), points);
            }
            drawing.meshes += 1;
        }
        drawing
    }

    fn push(&mut self, eye: u32, texture: u32, mode: u32, points: impl Iterator<Item = u32>) {
        let first = self.points();
        self.floats.extend(points);
        let count = self.points() - first;
        self.records
            .extend([eye, texture, mode, first as u32, count as u32]);
    }

    fn points(&self) -> usize {
        self.floats.len() / POINT
    }

    /// Meshes, submeshes, points.
    pub fn counts(&self) -> [u64; 3] {
        let submeshes = self.records.len() / RECORD;
        [self.meshes, submeshes, self.points()].map(|n| n as u64)
    }

    pub fn lengths(&self) -> [usize; 3] {
        [self.numbers.len(), self.floats.len(), self.records.len()]
    }

    /// The counts, then the lengths.
    pub fn words(&self) -> [u64; 6] {
        let [meshes, submeshes, points] = self.counts();
        let [numbers, floats, records] = self.lengths().map(|n| n as u64);
        [meshes, submeshes, points, numbers, floats, records]
    }
}

/// The eye of a mesh by its place in a list of so many: 0 both, 1 left, 2 right.
fn eye(place: usize, meshes: usize) -> u32 {
    match (meshes, place) {
        (1, _) => 0,
        (_, 0) => 1,
        _ => 2,
    }
}
