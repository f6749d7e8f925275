//! Lists of shown numbers to hand in that document 02 has 19 for, and entries behind the count.

use crate::display::plain_list::{is_record, total, Handed, MOST};
use crate::inputs::random::Random;

/// No record's number, and five times it is 4 modulo 2^32: a test in 32 bits takes it for a record from 9 words on.
pub const WRAPS: u32 = 858_993_460;

/// What 19 is given for, of the list itself.
#[derive(Clone, Copy, Debug, PartialEq)]
pub enum Spoil {
    TooLong,
    Repeat,
    NoRecord,
    TotalByOne,
    TotalBy32Bits,
}

pub const SPOILS: [Spoil; 5] = [
    Spoil::TooLong,
    Spoil::Repeat,
    Spoil::NoRecord,
    Spoil::TotalByOne,
    Spoil::TotalBy32Bits,
];

/// How many entries are looked at.
fn shown(list: &Handed) -> usize {
    MOST.min(list.count as usize)
}

/// Makes the total that of the numbers that are records, so that it is no fault of its own.
fn sum_up(words: &[u32], list: &mut Handed) {
    let numbers = list.entries[..shown(list)].iter().copied();
    let known: Vec<u32> = numbers.filter(|&n| is_record(words, n)).collect();
    list.total = total(words, &known);
}

/// Spoils a list of 64 entries or more in one way.
pub fn spoil(random: &mut Random, words: &[u32], list: &mut Handed, how: Spoil) {
    match how {
        Spoil::TooLong => list.count = random.pick(&[65, 66, 127, 1 << 31, u32::MAX]),
        Spoil::Repeat => {
            if shown(list) < 2 {
                list.count = 2;
            }
            let first = random.below(shown(list) - 1);
            let second = first + 1 + random.below(shown(list) - 1 - first);
            list.entries[second] = list.entries[first];
            sum_up(words, list);
        }
        Spoil::NoRecord => {
            if list.count == 0 {
                list.count = 1;
            }
            let place = random.below(shown(list));
            let first = (words.len() / 5) as u32;
            list.entries[place] = random.pick(&[first, first + 1, WRAPS, u32::MAX]);
            sum_up(words, list);
        }
        Spoil::TotalByOne => {
            let by = random.pick(&[1, u64::MAX]);
            list.total = list.total.wrapping_add(by);
        }
        Spoil::TotalBy32Bits => {
            let by = random.pick(&[1 << 32, (1u64 << 32).wrapping_neg()]);
            list.total = list.total.wrapping_add(by);
        }
    }
}

/// Puts any numbers behind the count, some of them the one that is asked for.
pub fn put_behind(random: &mut Random, list: &mut Handed, number: u32) {
    let from = shown(list);
    for entry in &mut list.entries[from..] {
        *entry = match random.below(3) {
            0 => number,
            1 => random.word(),
            _ => random.below(70) as u32,
        };
    }
}
