//! A verified reader and writer of panoramic payloads, on slices and numbers.
//!
//! Every call ends for every input, reads and writes only inside what it is lent, and answers what its definition in
//! the library says, or the one [`Refusal`] that document 01, the scope, or document 02, the requests after it, names.
//! The calls themselves are proved; this crate hands their arguments over and gives their answers types. Nothing here
//! panics.
//!
//! - [`scene`]: a payload of any kind becomes its drawing, with buffers of its own ([`Drawing::of`]) or lent ones.
//! - [`payload`]: readers, measuring calls and writers of the three kinds, meshes as tables, index makers, cube maps,
//!   counts, the viewer's small calls.
//! - [`display`]: what a display makes of a drawing's records: triangles, submeshes shown and hidden; and how it shares
//!   a frame's points out.
//! - [`alignment`]: what the alignment bench asks of a mesh list: the vertex numbers at points of a submesh.
//! - [`bits`]: cursors, fields, runs, numbers, floats, box headers.
//! - [`viewer`]: the five calls of the viewer's own library.
//!
//! ```
//! use hoodsorrel::scene::EQUI;
//! use hoodsorrel::{Bounds, Drawing, Given, Named, Refusal};
//!
//! // A crop that leaves out the upper quarter of the sphere.
//! let mut payload = [0; 20];
//! payload[4] = 0x40;
//! let drawing = Drawing::of(EQUI, &payload, &Given::default())?;
//! assert_eq!(drawing.named, Named::Crop(Bounds { top: 0.25, ..Bounds::FULL }));
//! assert_eq!(drawing.floats.len(), 2 * 19 * 37);
//!
//! let refusal = Drawing::of(EQUI, &payload[..19], &Given::default()).unwrap_err();
//! assert_eq!(refusal.number(), 3);
//! assert_eq!(
//!     refusal.to_string(),
//!     "refused 3: the payload or box body ends before the next field is complete"
//! );
//! # Ok::<(), Refusal>(())
//! ```

#![deny(missing_docs, unsafe_code)]

pub mod alignment;
mod answer;
pub mod bits;
pub mod display;
mod memory;
pub mod payload;
#[doc(hidden)]
#[allow(unsafe_code)]
pub mod raw;
mod refusal;
pub mod scene;
pub mod viewer;

pub use payload::{
    Bounds, Counts, EquiFields, EquiReading, GridLengths, MeshListSize, MeshTables, PointFields,
    Record, TableLengths, TexturePoints,
};
pub use refusal::{Needed, Refusal};
pub use scene::{Drawing, Given, Lengths, Named, Scene, SceneAnswer};

/// The program in docs/REFUSALS.md runs as a test.
#[cfg(doctest)]
#[doc = include_str!("../../../docs/REFUSALS.md")]
mod refusals_document {}
