//! What a display makes of the records of a drawing, and a frame's points shared out.

pub mod model;
pub mod plain_list;
pub mod records;
pub mod shares;
pub mod shown;
pub mod spoils;
pub mod triangles;

use crate::Subject;

pub const SUBJECTS: &[Subject] = &[
    ("triangles", triangles::run),
    ("shown", shown::run),
    ("shares", shares::run),
];
