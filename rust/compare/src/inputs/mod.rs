//! Inputs that several subjects take.

pub mod buffers;
pub mod payloads;
pub mod random;
pub mod sweep;
