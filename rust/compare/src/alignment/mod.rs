//! What the alignment bench asks of a mesh list.

pub mod found;
pub mod look_up;
pub mod model;
pub mod questions;

use crate::Subject;

pub const SUBJECTS: &[Subject] = &[("find_submesh", found::run), ("look_up", look_up::run)];
