//! Payloads and their drawings: crops, readers and writers of the three kinds, index makers, cube maps, counts and the
//! viewer's small calls.
//!
//! The calls on lent buffers allocate nothing. A buffer that is too short is refused with 12 and the length that it
//! needs, and a refusal leaves every buffer as it was:
//!
//! ```
//! use hoodsorrel::payload::{sphere_indices_bounded, sphere_lengths, Bounds};
//! use hoodsorrel::{Needed, Refusal};
//!
//! let crop = Bounds { top: 0.25, ..Bounds::FULL };
//! let lengths = sphere_lengths(2, 3, crop)?;
//! assert_eq!((lengths.numbers, lengths.floats), (27, 24));
//!
//! let mut numbers = [0; 27];
//! assert_eq!(
//!     sphere_indices_bounded(2, 3, crop, &mut numbers[..26]),
//!     Err(Refusal::BufferTooShort(Needed::One(27)))
//! );
//! assert_eq!(numbers, [0; 27]);
//! assert_eq!(sphere_indices_bounded(2, 3, crop, &mut numbers), Ok(27));
//! assert_eq!(numbers[..3], [0, 5, 1]);
//! # Ok::<(), Refusal>(())
//! ```

mod cbmp;
mod counts;
mod crop;
mod cube;
mod equi;
mod mesh;
mod meshes;
mod sphere;
mod tables;
mod view;

pub use cbmp::{parse_cbmp, write_cbmp};
pub use counts::{cubemap_index_count, cubemap_vertex_count, index_count, vertex_count};
pub use crop::Bounds;
pub use cube::{cubemap_indices, cubemap_lengths, cubemap_mesh, padding_share};
pub use equi::{EquiFields, EquiReading, parse_equi, write_equi};
pub use mesh::{TableLengths, measure_mesh, parse_mesh, write_mesh};
pub use meshes::{
    Counts, MeshListSize, PointFields, Record, TexturePoints, find_submesh, measure_meshes,
    mesh_records, parse_meshes, texture_points,
};
pub use sphere::{GridLengths, sphere_indices, sphere_indices_bounded, sphere_lengths, sphere_uvs};
pub use tables::{CoordinateNumber, MeshTables, Submesh, VertexNumber};
pub use view::{
    AnaglyphPair, ChannelMix, DEFAULT_FOV_DEG, Eye, MAX_FOV_DEG, MIN_FOV_DEG, Projection,
    StereoLayout, UvWindow, anaglyph_mix, fov_for_zoom, uv_window, zoom_for_fov,
};
