//! Crops, and the readers and writers of kinds 0 and 1.

pub mod cbmp;
pub mod equi;
pub mod usable;

use crate::Subject;

pub const SUBJECTS: &[Subject] = &[
    ("crops", usable::run),
    ("equi", equi::run),
    ("cbmp", cbmp::run),
];
