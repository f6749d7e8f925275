//! What a scene call has to answer and to draw: the limits and the order of document 01 around
//! the Rust's readers and makers.

use hoodsorrel::Given;
use reference::mesh;
use reference::pano::{self, Bounds, VERTEX_FLOATS};

use crate::crops::cbmp;
use crate::crops::equi::{self};
use crate::grids::cube::cells_usable;
use crate::grids::shares::MOST_FACE;
use crate::grids::sphere::{grid_usable, uvs_of};
use crate::inputs::payloads::LONGEST;
use crate::mesh::drawing::Drawing;
use crate::mesh::lists;
use crate::refusals::{CROP, GRID, KIND, MEASURES, TOO_LONG};

#[derive(Clone, Copy)]
pub struct Call<'a> {
    pub kind: u32,
    pub payload: &'a [u8],
    pub given: Given,
}

/// What was read, as the first words of the answer, and its drawing.
pub struct Scene {
    name: [u64; 5],
    pub numbers: Vec<u16>,
    pub floats: Vec<u32>,
    pub records: Vec<u32>,
}

/// A refusal is any but 12, which is for the buffers to decide.
pub type Due = Result<Scene, i64>;

impl Scene {
    pub fn lengths(&self) -> [usize; 3] {
        [self.numbers.len(), self.floats.len(), self.records.len()]
    }

    /// The name, then the lengths.
    pub fn words(&self) -> [u64; 8] {
        let [tag, a, b, c, d] = self.name;
        let [numbers, floats, records] = self.lengths().map(|n| n as u64);
        [tag, a, b, c, d, numbers, floats, records]
    }
}

pub fn due(call: Call) -> Due {
    if call.kind > 2 {
        return Err(KIND);
    }
    if call.payload.len() > LONGEST {
        return Err(TOO_LONG);
    }
    match call.kind {
        0 => crop(call.payload, call.given),
        1 => cube(call.payload, call.given),
        _ => mesh_list(call.payload),
    }
}

/// The crop is judged after the grid, although the Rust's reader judges it.
fn crop(payload: &[u8], given: Given) -> Due {
    let (rings, sectors) = (given.rings, given.sectors);
    let reading = mesh::parse_equi(payload).ok_or_else(|| equi::refusal(payload));
    match reading {
        Err(refusal) if refusal != CROP => Err(refusal),
        _ if !grid_usable(rings, sectors) => Err(GRID),
        reading => draw_sphere(reading?, rings, sectors).ok_or(GRID),
    }
}

/// Nothing where the Rust makes nothing of the grid.
fn draw_sphere(crop: Bounds, rings: u32, sectors: u32) -> Option<Scene> {
    let mut numbers = vec![0; pano::index_count(rings, sectors)];
    let made = pano::sphere_indices_bounded(rings, sectors, crop, &mut numbers)?;
    numbers.truncate(made);
    let sides = [crop.top, crop.bottom, crop.left, crop.right];
    let [top, bottom, left, right] = sides.map(|x| u64::from(x.to_bits()));
    Some(Scene {
        name: [0, top, bottom, left, right],
        numbers,
        floats: uvs_of(rings, sectors, sides)?,
        records: Vec::new(),
    })
}

fn cube(payload: &[u8], given: Given) -> Due {
    let padding = cbmp::padding(payload).ok_or_else(|| cbmp::refusal(payload))?;
    if !cells_usable(given.cells) {
        return Err(GRID);
    }
    if given.face_width == 0 || given.face_width > MOST_FACE {
        return Err(MEASURES);
    }
    draw_cube(padding, given).ok_or(MEASURES)
}

/// Nothing where the Rust takes the radius or the share for unusable.
fn draw_cube(padding: u32, given: Given) -> Option<Scene> {
    let cells = given.cells;
    let share = padding as f32 / given.face_width as f32;
    let mut floats = vec![0.0; VERTEX_FLOATS * pano::cubemap_vertex_count(cells)];
    pano::cubemap_mesh(cells, given.radius, share, &mut floats)?;
    let mut numbers = vec![0; pano::cubemap_index_count(cells)];
    pano::cubemap_indices(cells, &mut numbers)?;
    Some(Scene {
        name: [1, padding.into(), 0, 0, 0],
        numbers,
        floats: floats.into_iter().map(f32::to_bits).collect(),
        records: Vec::new(),
    })
}

fn mesh_list(payload: &[u8]) -> Due {
    let drawing = lists::due(payload)?;
    let [meshes, submeshes, points] = drawing.counts();
    let Drawing {
        numbers,
        floats,
        records,
        ..
    } = drawing;
    Ok(Scene {
        name: [2, meshes, submeshes, points, 0],
        numbers,
        floats,
        records,
    })
}
