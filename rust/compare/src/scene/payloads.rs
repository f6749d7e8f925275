//! Payloads of any kind for scene calls.

use crate::crops::cbmp;
use crate::crops::equi::{self, random_fields};
use crate::inputs::random::Random;
use crate::mesh::payloads::List;

/// A payload of kind 0 or 1 with any flags, and up to nine free bytes behind it.
pub fn dressed(random: &mut Random, payload: &[u8]) -> Vec<u8> {
    let mut bytes = payload.to_vec();
    random.fill(&mut bytes[1..4]);
    let free = random.below(10);
    bytes.extend(random.bytes(free));
    bytes
}

/// A payload that is mostly one of this kind; of no kind it is any bytes.
pub fn payload_of(random: &mut Random, kind: u32) -> Vec<u8> {
    match kind {
        0 => {
            let fields = random_fields(random);
            dressed(random, &equi::payload(fields))
        }
        1 => {
            let padding = random.below(4097) as u32;
            dressed(random, &cbmp::payload(0, padding))
        }
        2 => List::random(random).spelled().bytes,
        _ => {
            let n = random.below(64);
            random.bytes(n)
        }
    }
}
