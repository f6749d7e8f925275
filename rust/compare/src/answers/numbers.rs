//! The calls on numbers alone.

use crate::answers::line::{bits, List};
use crate::bits::bit_width;
use crate::bits::float_bits;
use crate::bits::nearest;
use crate::bits::run_on::{self, boundaries, next};
use crate::bits::scale;
use crate::bits::stepped;
use crate::bits::word_of;
use crate::bits::zigzag;
use crate::crops::usable::turns;
use crate::inputs::random::Random;

const RANDOM: usize = 12;
/// Around these the nearest float changes, and a share becomes 1.
const ROUNDED: [u32; 10] = [
    0x0100_0001,
    0x0100_0003,
    0x0200_0002,
    0x0200_0006,
    0x7FFF_FFBF,
    0x7FFF_FFC0,
    0xFFFF_FF7F,
    0xFFFF_FF80,
    0xFFFF_FE80,
    0xFFFF_FE7F,
];

pub fn add(list: &mut List, random: &mut Random) {
    let any: Vec<u32> = (0..RANDOM).map(|_| random.any_size() as u32).collect();
    for n in boundaries() {
        list.number("bit_width", &[n], bit_width::due(n));
    }
    let some = boundaries().into_iter().step_by(2);
    for n in some.chain(ROUNDED).chain(any) {
        list.number("zigzag", &[n], zigzag::due(n));
        list.number("nearest", &[n], nearest::due(n));
        list.number("scale", &[n], scale::due(n));
    }
    for _ in 0..2 * RANDOM {
        let (last, field) = (random.pick(&boundaries()), random.pick(&boundaries()));
        running(list, random, last, field);
        let (last, field) = (random.any_size() as u32, random.any_size() as u32);
        running(list, random, last, field);
    }
    let any: Vec<f32> = (0..RANDOM).map(|_| f32::from_bits(random.word())).collect();
    for x in turns().into_iter().chain(any) {
        list.number("float_bits", &[bits(x)], float_bits::due(x));
    }
}

/// Four bytes as a number.
pub fn add_word(list: &mut List, random: &mut Random) {
    for word in boundaries().into_iter().step_by(2) {
        word_of(list, word.to_be_bytes());
    }
    for _ in 0..RANDOM {
        word_of(list, random.word().to_be_bytes());
    }
}

fn word_of(list: &mut List, bytes: [u8; 4]) {
    list.number("word_of", &bytes.map(u32::from), word_of::due(bytes));
}

/// Where a field takes a running number, with limits around it and any other.
fn running(list: &mut List, random: &mut Random, last: u32, field: u32) {
    let args = [last.into(), field.into()];
    list.words("stepped", &args, &[], &stepped::due(last, field));
    let next = next(last, field);
    let any = i64::from(random.any_size() as u32);
    for limit in [next, next + 1, any] {
        if let Ok(limit) = u32::try_from(limit) {
            let due = run_on::due(last, field, limit);
            list.number("run_on", &[last, field, limit], due);
        }
    }
}
