//! Document 01's fields and running numbers, bit by bit, with running numbers that no machine's width cuts off.

use spell::field_width;

use crate::inputs::payloads::LONGEST;
use crate::refusals::{SHORT, STRAY, TOO_LONG};

/// Running numbers over the vertices.
pub const FIVE: usize = 5;
/// No wider fields are handed out.
pub const WIDEST: u32 = 16;
/// The first bit from which on they are.
pub const FIRST: usize = 33;

/// Where some fields of a width from a bit on end.
fn end(bit: usize, width: u32, fields: u64) -> u128 {
    bit as u128 + u128::from(width) * u128::from(fields)
}

/// A field, high bit first, where it is complete.
pub fn field(data: &[u8], bit: usize, width: u32) -> Option<u32> {
    if end(bit, width, 1) > 8 * data.len() as u128 {
        return None;
    }
    Some((bit..bit + width as usize).fold(0, |value, place| {
        value << 1 | u32::from(data[place / 8] >> (7 - place % 8) & 1)
    }))
}

/// f / 2 when even, -(f + 1) / 2 when odd.
fn meaning(field: u32) -> i128 {
    let f = i128::from(field);
    if f % 2 == 0 {
        f / 2
    } else {
        -(f + 1) / 2
    }
}

/// What a run of fields from a bit on is judged: 0, or -k for refusal k. So many running numbers take turns.
pub fn judged(data: &[u8], bit: usize, limit: u16, fields: u64, turns: usize) -> i64 {
    if data.len() > LONGEST {
        return -TOO_LONG;
    }
    let width = field_width(limit.into());
    let mut numbers = vec![0; turns];
    let mut place = bit;
    for turn in (0..turns).cycle().take(fields as usize) {
        let Some(field) = field(data, place, width) else {
            return -SHORT;
        };
        numbers[turn] += meaning(field);
        if numbers[turn] < 0 || numbers[turn] >= i128::from(limit) {
            return -STRAY;
        }
        place += width as usize;
    }
    0
}

/// Whether so many fields from a bit on can be handed out.
pub fn there(data: &[u8], bit: usize, width: u32, fields: usize) -> bool {
    data.len() <= LONGEST
        && (1..=WIDEST).contains(&width)
        && bit >= FIRST
        && end(bit, width, fields as u64) <= 8 * data.len() as u128
}

/// The running numbers modulo 2^16 of as many fields as there are places.
pub fn hand_out(data: &[u8], bit: usize, width: u32, from: &[u16], out: &mut [u16]) {
    let mut numbers: Vec<i128> = from.iter().copied().map(i128::from).collect();
    for (i, place) in out.iter_mut().enumerate() {
        let field = field(data, bit + i * width as usize, width).expect("a field that is there");
        let number = &mut numbers[i % from.len()];
        *number += meaning(field);
        *place = number.rem_euclid(1 << 16) as u16;
    }
}
