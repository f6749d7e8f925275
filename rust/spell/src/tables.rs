//! A mesh as document 01's four tables.

use crate::{Mesh, FIELDS};

/// Words to a submesh: texture, mode, point count.
pub const ROW: usize = 3;

/// The form that `parse_mesh` and the mesh writer share.
#[derive(Clone, Debug, Default, PartialEq)]
pub struct Tables {
    pub pool: Vec<u32>,
    /// Five to a vertex.
    pub coordinates: Vec<u16>,
    /// Three to a submesh.
    pub submeshes: Vec<u32>,
    /// Vertex numbers, submesh after submesh.
    pub points: Vec<u16>,
}

impl Tables {
    pub fn zeros([pool, coordinates, submeshes, points]: [usize; 4]) -> Tables {
        Tables {
            pool: vec![0; pool],
            coordinates: vec![0; coordinates],
            submeshes: vec![0; submeshes],
            points: vec![0; points],
        }
    }

    pub fn lengths(&self) -> [usize; 4] {
        [
            self.pool.len(),
            self.coordinates.len(),
            self.submeshes.len(),
            self.points.len(),
        ]
    }

    /// The vertices that are whole.
    pub fn vertices(&self) -> usize {
        self.coordinates.len() / FIELDS
    }

    pub fn push_submesh(&mut self, texture: u32, mode: u32, points: impl Iterator<Item = u16>) {
        let first = self.points.len();
        self.points.extend(points);
        let count = (self.points.len() - first) as u32;
        self.submeshes.extend([texture, mode, count]);
    }
}

/// For a mesh whose numbers all have places. What is free is left out.
impl From<&Mesh> for Tables {
    fn from(mesh: &Mesh) -> Tables {
        let mut tables = Tables {
            pool: mesh.pool.clone(),
            coordinates: places(&mesh.coordinates).collect(),
            ..Tables::default()
        };
        for submesh in &mesh.submeshes {
            tables.push_submesh(
                submesh.texture.into(),
                submesh.mode.into(),
                places(&submesh.points),
            );
        }
        tables
    }
}

fn places(numbers: &[i64]) -> impl Iterator<Item = u16> + '_ {
    numbers.iter().map(|&number| number as u16)
}
