//! The bit cursor and the field read.

use reference::mesh::BitReader;

use crate::inputs::buffers::{largest, place, short_buffers, slice};
use crate::inputs::random::Random;
use crate::lent::answer::Answer;
use crate::options::Options;
use crate::refusals::{SHORT, WIDE};
use crate::tally::Tally;

const NAME: &str = "fields";
const RANDOM: u32 = 4_000_000;
/// From here on eight times a byte offset is no usize.
pub const NO_PRODUCT: usize = 1 << 61;

pub fn run(options: &Options) -> Vec<Tally> {
    let what = "against mesh::BitReader: read and the place after it, new, align_to_byte";
    let mut tally = Tally::new(options, NAME, what);
    let mut random = Random::new(options.seed, NAME);
    every_place(&mut tally, &mut random);
    random_places(&mut tally, &mut random);
    places_alone(&mut tally, &mut random);
    vec![tally, beyond(options, &mut random)]
}

fn every_place(tally: &mut Tally, random: &mut Random) {
    for data in short_buffers(random, 12) {
        for bit in (0..=8 * data.len() + 40).chain(largest()) {
            for width in 0..=32 {
                read(tally, &data, bit, width);
            }
        }
    }
}

fn random_places(tally: &mut Tally, random: &mut Random) {
    let pool = random.bytes(4096);
    for _ in 0..RANDOM {
        let data = slice(random, &pool, 64);
        let bit = place(random, 8 * data.len());
        read(tally, data, bit, random.below(33) as u32);
    }
}

fn places_alone(tally: &mut Tally, random: &mut Random) {
    for n in 0..10_000 {
        new(tally, n);
        new(tally, NO_PRODUCT - 1 - n);
        new(tally, random.any_size() % NO_PRODUCT);
        align(tally, n);
        align(tally, usize::MAX - 7 - n);
        align(tally, random.any_size().min(usize::MAX - 7));
    }
}

/// What a field is in the Rust, which allows no width above 32: there 16, document 02's, before anything is read.
pub fn due(data: &[u8], bit: usize, width: u32) -> Answer {
    if width > 32 {
        return Answer::refused(WIDE);
    }
    let mut reader = BitReader::new(data, 0);
    reader.bit = bit;
    let value = reader.read(width);
    Answer::words_or(value.map(|v| [u64::from(v), reader.bit as u64]), SHORT)
}

fn read(tally: &mut Tally, data: &[u8], bit: usize, width: u32) {
    ours(tally, &due(data, bit, width), data, bit, width);
}

fn ours(tally: &mut Tally, due: &Answer, data: &[u8], bit: usize, width: u32) {
    tally.call(
        due,
        |words| hoodsorrel::raw::read(data, bit, width, words),
        || ("read", data.to_vec(), bit, width),
    );
}

/// The largest place for a product that the Rust would wrap.
pub fn new_due(byte: usize) -> Answer {
    Answer::place(match byte < NO_PRODUCT {
        true => BitReader::new(&[], byte).bit,
        false => usize::MAX,
    })
}

fn new(tally: &mut Tally, byte: usize) {
    tally.call(
        &new_due(byte),
        |words| hoodsorrel::raw::bit_new(byte, words),
        || ("new", byte),
    );
}

/// The largest place for a sum that the Rust would wrap.
pub fn align_due(bit: usize) -> Answer {
    let mut reader = BitReader { data: &[], bit };
    if bit > usize::MAX - 7 {
        return Answer::place(usize::MAX);
    }
    reader.align_to_byte();
    Answer::place(reader.bit)
}

fn align(tally: &mut Tally, bit: usize) {
    tally.call(
        &align_due(bit),
        |words| hoodsorrel::raw::align(bit, words),
        || ("align_to_byte", bit),
    );
}

/// What the Rust's sums and products wrap at or come close to, and widths that it does not allow.
fn beyond(options: &Options, random: &mut Random) -> Tally {
    let what = "no field at the largest places, the largest place for one that would be larger, 16 for a width above 32";
    let mut tally = Tally::new(options, "fields beyond the Rust", what);
    for data in short_buffers(random, 2) {
        for bit in largest() {
            no_field(&mut tally, &data, bit);
        }
        // wherever the place is: the width is told where the field would be too short as well
        for width in (33..200).chain([u32::MAX - 1, u32::MAX]) {
            for bit in (0..=8 * data.len() + 40).chain(largest()) {
                read(&mut tally, &data, bit, width);
            }
        }
    }
    for n in 0..10_000 {
        for byte in [NO_PRODUCT + n, usize::MAX - n] {
            new(&mut tally, byte);
        }
        new(&mut tally, NO_PRODUCT | random.any_size());
    }
    for n in 0..7 {
        align(&mut tally, usize::MAX - n);
    }
    tally
}

/// A field of width 0 is 0 and moves nothing; any other one does not fit.
fn no_field(tally: &mut Tally, data: &[u8], bit: usize) {
    ours(tally, &Answer::words(&[0, bit as u64]), data, bit, 0);
    for width in 1..=32 {
        ours(tally, &Answer::refused(SHORT), data, bit, width);
    }
}
