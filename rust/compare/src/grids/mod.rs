//! The sphere's grid, the cube map, their counts, and which way round their triangles go.

pub mod counts;
pub mod cube;
pub mod lengths;
pub mod shares;
pub mod sphere;
mod walks;
mod winding;

use crate::Subject;

pub const SUBJECTS: &[Subject] = &[
    ("sphere", sphere::run),
    ("cube", cube::run),
    ("lengths", lengths::run),
    ("counts", counts::run),
    ("winding", winding::run),
];
