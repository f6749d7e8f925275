//! The reader and the writer of kind 1.

use reference::mesh::{self, Spherical};

use crate::bits::run_on::boundaries;
use crate::inputs::payloads::{self, damaged, shown};
use crate::inputs::random::Random;
use crate::inputs::sweep::{sample, sweep};
use crate::lent::answer::Answer;
use crate::lent::put::{self, Due};
use crate::options::Options;
use crate::refusals::{CUBE_LAYOUT, SHORT, VERSION};
use crate::tally::Tally;

const NAME: &str = "cbmp";
const LENGTH: usize = 12;
const MOST_PADDING: u32 = 4096;
const RANDOM: u32 = 1_000_000;
/// Lengths to lend to the writer.
pub const LENT: [usize; 5] = [0, 11, 12, 13, 40];

pub fn run(options: &Options) -> Vec<Tally> {
    let what = "against mesh::parse_cbmp, with the number of its refusal";
    let mut tally = Tally::new(options, NAME, what);
    let what = "no payload above 67108864 bytes";
    let mut beyond = Tally::new(options, "cbmp beyond the Rust", what);
    let what = "answer and buffer against to_be_bytes, read back with mesh::parse_cbmp";
    let mut writes = Tally::new(options, "cbmp written", what);
    let mut random = Random::new(options.seed, NAME);
    sweep(options, NAME, |v| check(&mut tally, &payload(0, v)));
    sample(options, NAME, |v| check(&mut tally, &payload(v, 0)));
    for layout in boundaries() {
        for padding in boundaries() {
            check(&mut tally, &payload(layout, padding));
        }
    }
    lengths(&mut tally, &mut beyond, &mut random);
    for _ in 0..RANDOM {
        let payload = random_payload(&mut random);
        check(&mut tally, &payload);
        check(&mut tally, &damaged(&mut random, &payload));
        let n = random.below(64);
        check(&mut tally, &random.bytes(n));
    }
    written(&mut writes, &mut random);
    vec![tally, beyond, writes]
}

pub fn payload(layout: u32, padding: u32) -> [u8; LENGTH] {
    let mut bytes = [0; LENGTH];
    bytes[4..8].copy_from_slice(&layout.to_be_bytes());
    bytes[8..].copy_from_slice(&padding.to_be_bytes());
    bytes
}

pub fn random_payload(random: &mut Random) -> [u8; LENGTH] {
    let layout = match random.below(8) {
        0 => random.any_size() as u32,
        _ => 0,
    };
    let padding = match random.below(4) {
        0 => random.any_size() as u32,
        _ => random.below(2 * MOST_PADDING as usize) as u32,
    };
    payload(layout, padding)
}

fn lengths(tally: &mut Tally, beyond: &mut Tally, random: &mut Random) {
    let mut payloads = vec![
        payload(0, 0),
        payload(0, MOST_PADDING),
        payload(0, MOST_PADDING + 1),
        payload(0, u32::MAX),
        payload(1, 0),
        payload(0x0100_0000, MOST_PADDING + 1),
        [0xFF; LENGTH],
    ];
    payloads.extend((0..200).map(|_| random_payload(random)));
    payloads::lengths(
        random,
        beyond,
        &payloads,
        |payload| check(tally, payload),
        hoodsorrel::raw::parse_cbmp,
    );
}

/// What the Rust's `None` stands for: a field that is not whole comes before what is in it.
pub fn refusal(payload: &[u8]) -> i64 {
    match payload.first() {
        None => SHORT,
        Some(&version) if version != 0 => VERSION,
        _ if payload.len() < 8 => SHORT,
        _ if payload[4..8] != [0; 4] => CUBE_LAYOUT,
        _ if payload.len() < LENGTH => SHORT,
        _ => CUBE_LAYOUT,
    }
}

pub fn padding(payload: &[u8]) -> Option<u32> {
    match mesh::parse_cbmp(payload)? {
        Spherical::Cubemap { layout: 0, padding } => Some(padding),
        _ => None,
    }
}

pub fn due(payload: &[u8]) -> Answer {
    let padding = padding(payload).map(|padding| [u64::from(padding)]);
    Answer::words_or(padding, refusal(payload))
}

fn check(tally: &mut Tally, payload: &[u8]) {
    tally.call(
        &due(payload),
        |words| hoodsorrel::raw::parse_cbmp(payload, words),
        || shown(payload),
    );
}

fn written(tally: &mut Tally, random: &mut Random) {
    for padding in (0..2 * MOST_PADDING).chain(boundaries()) {
        for lent in LENT {
            write(tally, random, padding, lent);
        }
    }
}

pub fn write_due(padding: u32, before: &[u8]) -> Due<u32> {
    if padding > MOST_PADDING {
        return Due::unchanged(Answer::refused(CUBE_LAYOUT), before);
    }
    if before.len() < LENGTH {
        return Due::unchanged(Answer::needs(LENGTH), before);
    }
    let mut after = before.to_vec();
    after[..LENGTH].copy_from_slice(&payload(0, padding));
    Due::done(Answer::place(LENGTH), after, padding)
}

fn write(tally: &mut Tally, random: &mut Random, value: u32, lent: usize) {
    let before = random.bytes(lent);
    put::check(
        tally,
        write_due(value, &before),
        &before,
        |out, words| hoodsorrel::raw::write_cbmp(value, out, words),
        padding,
        || (value, before.clone()),
    );
}
