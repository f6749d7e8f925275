//! The writer of one mesh box in documents 01 and 02: which tables are a mesh, of finite words, and its box spelled bit
//! by bit.

use spell::{Mesh, Submesh, Tables, FIELDS, ROW};

use crate::inputs::payloads::LONGEST;
use crate::mesh::model::{finite, MOST_COORDINATES, MOST_POINTS, MOST_VERTICES};
use crate::mesh::payloads::lone;
use crate::refusals::{BAD_WORD, NO_MESH};

/// The box, or the number of the refusal.
pub fn write_mesh(tables: &Tables) -> Result<Vec<u8>, i64> {
    if !is_mesh(tables) {
        return Err(NO_MESH);
    }
    let written = lone(&mesh(tables));
    if written.len() > LONGEST {
        return Err(NO_MESH);
    }
    if !tables.pool.iter().all(|&word| finite(word)) {
        return Err(BAD_WORD);
    }
    Ok(written)
}

fn is_mesh(tables: &Tables) -> bool {
    let Tables {
        pool,
        coordinates,
        submeshes,
        points,
    } = tables;
    within(pool.len(), MOST_COORDINATES)
        && coordinates.len() % FIELDS == 0
        && within(tables.vertices(), MOST_VERTICES)
        && all_below(coordinates, pool.len())
        && !submeshes.is_empty()
        && submeshes.len() % ROW == 0
        && submeshes.chunks_exact(ROW).all(is_submesh)
        && counted(submeshes) == points.len() as u128
        && all_below(points, tables.vertices())
}

fn within(count: usize, most: u32) -> bool {
    count >= 1 && count <= most as usize
}

fn all_below(numbers: &[u16], count: usize) -> bool {
    numbers.iter().all(|&number| usize::from(number) < count)
}

fn is_submesh(row: &[u32]) -> bool {
    row[0] <= 255 && row[1] <= 255 && within(row[2] as usize, MOST_POINTS)
}

/// The counts of the rows, added up exactly.
fn counted(submeshes: &[u32]) -> u128 {
    let rows = submeshes.chunks_exact(ROW);
    rows.map(|row| u128::from(row[2])).sum()
}

/// What is free is 0, and nothing is behind the last field.
fn mesh(tables: &Tables) -> Mesh {
    let mut points = numbers(&tables.points);
    let submeshes = tables.submeshes.chunks_exact(ROW).map(|row| Submesh {
        texture: row[0] as u8,
        mode: row[1] as u8,
        points: points.by_ref().take(row[2] as usize).collect(),
    });
    Mesh {
        pool: tables.pool.clone(),
        coordinates: numbers(&tables.coordinates).collect(),
        submeshes: submeshes.collect(),
        free: 0,
        rest: Vec::new(),
    }
}

fn numbers(places: &[u16]) -> impl Iterator<Item = i64> + '_ {
    places.iter().map(|&place| place.into())
}
