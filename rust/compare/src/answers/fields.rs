//! The calls of the bit cursor.

use crate::answers::line::List;
use crate::bits::fields::{self, NO_PRODUCT};
use crate::bits::read_two;
use crate::inputs::buffers::place;
use crate::inputs::random::Random;

const WIDTHS: [u32; 13] = [0, 1, 2, 7, 8, 9, 17, 24, 25, 31, 32, 33, u32::MAX];
/// Fields of each width.
const FIELDS: usize = 6;
const RANDOM: usize = 16;

pub fn add(list: &mut List, random: &mut Random) {
    for n in (0..=9).chain([NO_PRODUCT - 1, NO_PRODUCT, NO_PRODUCT + 1]) {
        new(list, n);
        new(list, usize::MAX - n);
        align(list, n);
        align(list, usize::MAX - n);
        align(list, NO_PRODUCT + n);
    }
    for _ in 0..RANDOM {
        new(list, random.any_size());
        align(list, random.any_size());
    }
    for width in WIDTHS {
        for _ in 0..FIELDS {
            let n = random.below(10);
            let data = random.bytes(n);
            read(list, &data, place(random, 8 * n), width);
        }
        last(list, random, width);
    }
}

/// Two fields of one width.
pub fn add_two(list: &mut List, random: &mut Random) {
    for width in WIDTHS.into_iter().chain([15, 16]) {
        for _ in 0..FIELDS {
            let n = random.below(10);
            let data = random.bytes(n);
            two(list, &data, place(random, 8 * n), width);
        }
        let data = random.bytes(9);
        let end = 8 * data.len();
        let first = end.saturating_sub(2 * width.min(32) as usize);
        for bit in [first, first + 1, end, usize::MAX] {
            two(list, &data, bit, width);
        }
    }
}

fn two(list: &mut List, data: &[u8], bit: usize, width: u32) {
    let args = [bit as u64, width.into()];
    list.words("read_two", &args, data, &read_two::due(data, bit, width));
}

/// A field that ends with its buffer, the next one, and one at the largest place.
fn last(list: &mut List, random: &mut Random, width: u32) {
    let data = random.bytes(7);
    let end = 8 * data.len();
    let first = end.saturating_sub(width as usize);
    for bit in [first, first + 1, end, usize::MAX] {
        read(list, &data, bit, width);
    }
}

fn new(list: &mut List, byte: usize) {
    list.words("bit_new", &[byte as u64], &[], &fields::new_due(byte));
}

fn align(list: &mut List, bit: usize) {
    list.words("align", &[bit as u64], &[], &fields::align_due(bit));
}

fn read(list: &mut List, data: &[u8], bit: usize, width: u32) {
    let args = [bit as u64, width.into()];
    list.words("read", &args, data, &fields::due(data, bit, width));
}
