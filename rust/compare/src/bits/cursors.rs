//! The byte cursor.

use reference::mesh::Reader;

use crate::inputs::buffers::{largest, place, short_buffers, slice};
use crate::inputs::random::Random;
use crate::lent::answer::Answer;
use crate::options::Options;
use crate::refusals::SHORT;
use crate::tally::Tally;

const NAME: &str = "cursors";
const RANDOM: u32 = 1_000_000;

pub fn run(options: &Options) -> Vec<Tally> {
    let what = "against mesh::Reader: new, position, remaining, seek, skip, u8, u32";
    let mut tally = Tally::new(options, NAME, what);
    let what = "nothing remains past the end";
    let mut beyond = Tally::new(options, "cursors beyond the Rust", what);
    let mut random = Random::new(options.seed, NAME);
    new(&mut tally);
    for data in short_buffers(&mut random, 4) {
        for at in (0..=data.len() + 9).chain(largest()) {
            reads(&mut tally, &mut beyond, &data, at);
            for step in (0..=data.len() + 9).chain(largest()) {
                steps(&mut tally, &data, at, step);
            }
        }
    }
    let pool = random.bytes(4096);
    for _ in 0..RANDOM {
        let data = slice(&mut random, &pool, 256);
        let at = place(&mut random, data.len());
        reads(&mut tally, &mut beyond, data, at);
        steps(&mut tally, data, at, place(&mut random, data.len()));
        steps(&mut tally, data, at, data.len().wrapping_sub(at));
    }
    vec![tally, beyond]
}

pub fn new_due() -> Answer {
    Answer::place(Reader::new(&[]).position())
}

fn new(tally: &mut Tally) {
    tally.call(&new_due(), hoodsorrel::raw::byte_new, || "new");
}

/// A reader at any place, also past the end.
fn reader(data: &[u8], position: usize) -> Reader<'_> {
    Reader { data, position }
}

fn reads(tally: &mut Tally, beyond: &mut Tally, data: &[u8], at: usize) {
    position(tally, data, at);
    byte(tally, data, at);
    word(tally, data, at);
    if at <= data.len() {
        remaining(tally, data, at);
    } else {
        remaining(beyond, data, at);
    }
}

fn steps(tally: &mut Tally, data: &[u8], at: usize, step: usize) {
    seek(tally, data, at, step);
    skip(tally, data, at, step);
}

pub fn position_due(data: &[u8], at: usize) -> Answer {
    Answer::place(reader(data, at).position())
}

/// Past the end nothing remains, where the Rust's difference would wrap.
pub fn remaining_due(data: &[u8], at: usize) -> Answer {
    Answer::place(match at > data.len() {
        true => 0,
        false => reader(data, at).remaining(),
    })
}

pub fn byte_due(data: &[u8], at: usize) -> Answer {
    let mut r = reader(data, at);
    let value = r.u8();
    Answer::words_or(value.map(|v| [u64::from(v), r.position() as u64]), SHORT)
}

pub fn word_due(data: &[u8], at: usize) -> Answer {
    let mut r = reader(data, at);
    let value = r.u32();
    Answer::words_or(value.map(|v| [u64::from(v), r.position() as u64]), SHORT)
}

pub fn seek_due(data: &[u8], at: usize, to: usize) -> Answer {
    let mut r = reader(data, at);
    let done = r.seek(to);
    Answer::words_or(done.map(|()| [r.position() as u64]), SHORT)
}

pub fn skip_due(data: &[u8], at: usize, n: usize) -> Answer {
    let mut r = reader(data, at);
    let done = r.skip(n);
    Answer::words_or(done.map(|()| [r.position() as u64]), SHORT)
}

fn position(tally: &mut Tally, data: &[u8], at: usize) {
    tally.call(
        &position_due(data, at),
        |words| hoodsorrel::raw::position(at, words),
        || ("position", at),
    );
}

fn remaining(tally: &mut Tally, data: &[u8], at: usize) {
    tally.call(
        &remaining_due(data, at),
        |words| hoodsorrel::raw::remaining(data, at, words),
        || ("remaining", data.to_vec(), at),
    );
}

fn byte(tally: &mut Tally, data: &[u8], at: usize) {
    tally.call(
        &byte_due(data, at),
        |words| hoodsorrel::raw::u8(data, at, words),
        || ("u8", data.to_vec(), at),
    );
}

fn word(tally: &mut Tally, data: &[u8], at: usize) {
    tally.call(
        &word_due(data, at),
        |words| hoodsorrel::raw::u32(data, at, words),
        || ("u32", data.to_vec(), at),
    );
}

fn seek(tally: &mut Tally, data: &[u8], at: usize, to: usize) {
    tally.call(
        &seek_due(data, at, to),
        |words| hoodsorrel::raw::seek(data, at, to, words),
        || ("seek", data.to_vec(), at, to),
    );
}

fn skip(tally: &mut Tally, data: &[u8], at: usize, n: usize) {
    tally.call(
        &skip_due(data, at, n),
        |words| hoodsorrel::raw::skip(data, at, n, words),
        || ("skip", data.to_vec(), at, n),
    );
}
