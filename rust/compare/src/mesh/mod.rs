//! Mesh bodies and mesh lists, read and written.

pub mod body;
pub mod damage;
pub mod drawing;
pub mod lists;
pub mod longs;
pub mod model;
pub mod payloads;
pub mod plans;
pub mod spoils;
pub mod textures;
pub mod thirds;
pub mod words;
pub mod writer;
pub mod writer_model;

use crate::Subject;

pub const SUBJECTS: &[Subject] = &[
    ("mesh", body::run),
    ("meshes", lists::run),
    ("textures", textures::run),
    ("mesh_writer", writer::run),
];
