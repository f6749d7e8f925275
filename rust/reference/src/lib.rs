//! The Rust to compare with: `mesh` and `pano` as they are, with every item visible.

include!(concat!(env!("OUT_DIR"), "/modules.rs"));
