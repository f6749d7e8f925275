//! The calls that put a word or a field into a buffer.

use crate::answers::line::{lent, List};
use crate::bits::put_field;
use crate::bits::put_word;
use crate::inputs::buffers::place;
use crate::inputs::random::Random;

/// Lengths to lend.
const LENGTHS: [usize; 4] = [0, 4, 5, 16];
const WIDTHS: [u32; 9] = [0, 1, 7, 8, 9, 31, 32, 33, u32::MAX];

pub fn add(list: &mut List, random: &mut Random) {
    for n in LENGTHS {
        let last = n.saturating_sub(4);
        let any = place(random, n);
        for at in [0, 1, last, last + 1, n, any, usize::MAX - 4, usize::MAX - 3] {
            word(list, n, at, random.word());
        }
        word(list, n, usize::MAX, 0);
        word(list, n, 0, u32::MAX);
        for width in WIDTHS {
            let last = (8 * n).saturating_sub(width as usize);
            let any = place(random, 8 * n);
            let value = random.pick(&[0, u32::MAX]);
            field(list, n, any, width, value);
            field(list, n, last, width, random.word());
            field(list, n, last + 1, width, random.word());
        }
        for bit in [usize::MAX - 31, usize::MAX - 7, usize::MAX] {
            field(list, n, bit, random.below(33) as u32, random.word());
            field(list, n, bit, 33, u32::MAX);
        }
    }
}

fn word(list: &mut List, n: usize, at: usize, x: u32) {
    let due = put_word::due(&lent(n, &[]), at, x);
    let args = [n as u64, at as u64, x.into()];
    list.buffers("put_word", &args, &[], &due.answer, &[&due.after]);
}

fn field(list: &mut List, n: usize, bit: usize, width: u32, value: u32) {
    let due = put_field::due(&lent(n, &[]), bit, width, value);
    let args = [n as u64, bit as u64, width.into(), value.into()];
    list.buffers("put_field", &args, &[], &due.answer, &[&due.after]);
}
