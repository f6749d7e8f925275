//! A mesh with tables of its own.

use crate::memory;
use crate::payload::{TableLengths, measure_mesh, parse_mesh, write_mesh};
use crate::refusal::{Needed, Refusal};

/// A place in the pool.
#[derive(Clone, Copy, Debug, PartialEq, Eq, Hash, PartialOrd, Ord)]
pub struct CoordinateNumber(pub u16);

/// A place among the vertices. A coordinate number handed over as one does not build:
///
/// ```compile_fail
/// use hoodsorrel::payload::{CoordinateNumber, MeshTables};
///
/// MeshTables::default().vertex(CoordinateNumber(0));
/// ```
#[derive(Clone, Copy, Debug, PartialEq, Eq, Hash, PartialOrd, Ord)]
pub struct VertexNumber(pub u16);

/// A row of the submesh table.
#[derive(Clone, Copy, Debug, Default, PartialEq, Eq, Hash)]
pub struct Submesh {
    /// Which texture it samples: up to 255.
    pub texture: u32,
    /// How its points make triangles: up to 255, not judged here.
    pub mode: u32,
    /// How many points it has.
    pub points: u32,
}

/// A mesh as four tables, the form that [`parse_mesh`] and [`write_mesh`] share.
///
/// ```
/// use hoodsorrel::payload::{MeshTables, Submesh, VertexNumber};
/// use hoodsorrel::Refusal;
///
/// let mesh = MeshTables {
///     pool: vec![0.0f32.to_bits(), 1.0f32.to_bits()],
///     coordinates: vec![0, 0, 0, 0, 0, 1, 0, 0, 1, 0, 0, 1, 0, 0, 1],
///     submeshes: vec![0, 0, 3],
///     points: vec![0, 1, 2],
/// };
/// let list = mesh.write()?;
/// assert_eq!(list.len(), 40);
/// assert_eq!(MeshTables::of(&list[8..])?, mesh);
///
/// assert!(mesh.rows().eq([Submesh { texture: 0, mode: 0, points: 3 }]));
/// let vertex = mesh.vertex(VertexNumber(1)).expect("three vertices");
/// assert_eq!(vertex.map(|c| mesh.coordinate(c)), [Some(1.0), Some(0.0), Some(0.0), Some(1.0), Some(0.0)]);
/// assert_eq!(mesh.vertex(VertexNumber(3)), None);
/// # Ok::<(), Refusal>(())
/// ```
#[derive(Clone, Debug, Default, PartialEq, Eq, Hash)]
pub struct MeshTables {
    /// The pool: finite floats as their bits.
    pub pool: Vec<u32>,
    /// Five places in the pool for each vertex.
    pub coordinates: Vec<u16>,
    /// Texture, mode and point count of each submesh.
    pub submeshes: Vec<u32>,
    /// A place among the vertices for each point.
    pub points: Vec<u16>,
}

impl MeshTables {
    /// Reads a mesh body: measures it, makes the tables and fills them.
    ///
    /// Refused with 2, then 3, 7, 8 and 17 in field order; and with 12 where memory does not hold the tables.
    pub fn of(body: &[u8]) -> Result<MeshTables, Refusal> {
        let lengths = measure_mesh(body)?;
        let mut tables =
            MeshTables::with(lengths).ok_or(Refusal::BufferTooShort(Needed::Tables(lengths)))?;
        parse_mesh(
            body,
            &mut tables.pool,
            &mut tables.coordinates,
            &mut tables.submeshes,
            &mut tables.points,
        )?;
        Ok(tables)
    }

    fn with(lengths: TableLengths) -> Option<MeshTables> {
        Some(MeshTables {
            pool: memory::zeros(lengths.pool)?,
            coordinates: memory::zeros(lengths.coordinates)?,
            submeshes: memory::zeros(lengths.submeshes)?,
            points: memory::zeros(lengths.points)?,
        })
    }

    /// Its box: measured, made and filled.
    ///
    /// Refused with 13, then 17; and with 12 where memory does not hold the box.
    pub fn write(&self) -> Result<Vec<u8>, Refusal> {
        let needed = match self.write_into(&mut []) {
            Err(Refusal::BufferTooShort(Needed::One(length))) => length,
            Err(refusal) => return Err(refusal),
            Ok(length) => length,
        };
        let mut out = memory::zeros(needed).ok_or(Refusal::BufferTooShort(Needed::One(needed)))?;
        self.write_into(&mut out)?;
        Ok(out)
    }

    /// Its box at the front of a buffer, and the box's size: [`write_mesh`].
    ///
    /// Refused with 13, then 17, then 12.
    pub fn write_into(&self, out: &mut [u8]) -> Result<usize, Refusal> {
        write_mesh(
            &self.pool,
            &self.coordinates,
            &self.submeshes,
            &self.points,
            out,
        )
    }

    /// The rows of the submesh table, as far as they are whole.
    pub fn rows(&self) -> impl Iterator<Item = Submesh> {
        let (rows, _) = self.submeshes.as_chunks();
        rows.iter().map(|&[texture, mode, points]| Submesh {
            texture,
            mode,
            points,
        })
    }

    /// The five coordinate numbers of a vertex, if there is such a vertex.
    pub fn vertex(&self, vertex: VertexNumber) -> Option<[CoordinateNumber; 5]> {
        let (vertices, _) = self.coordinates.as_chunks();
        let numbers = vertices.get(usize::from(vertex.0))?;
        Some(numbers.map(CoordinateNumber))
    }

    /// A coordinate, if there is such a one.
    pub fn coordinate(&self, coordinate: CoordinateNumber) -> Option<f32> {
        let bits = self.pool.get(usize::from(coordinate.0))?;
        Some(f32::from_bits(*bits))
    }
}
