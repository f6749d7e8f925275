//! What a C function answered, as a `Result`.

use crate::refusal::{Needed, Refusal};

/// No answer has more words.
const MOST: usize = 8;

/// The words of an answer, with zeros after them.
pub(crate) type Words = [u64; MOST];

/// An answer: how many words it has, and the words.
pub(crate) struct Answer {
    pub(crate) count: i64,
    pub(crate) words: Words,
}

/// Makes a call with words for any answer. `needed` says what the words of 12 mean.
pub(crate) fn asked(
    needed: fn(Words) -> Needed,
    call: impl FnOnce(&mut [u64]) -> i64,
) -> Result<Answer, Refusal> {
    let mut words = [0; MOST];
    let count = call(&mut words);
    if count < 0 {
        return Err(Refusal::of_code(count, needed(words)));
    }
    Ok(Answer { count, words })
}

/// The words of a call that needs one length, or none.
pub(crate) fn words(call: impl FnOnce(&mut [u64]) -> i64) -> Result<Words, Refusal> {
    asked(one, call).map(|answer| answer.words)
}

/// The first word of such a call.
pub(crate) fn word(call: impl FnOnce(&mut [u64]) -> i64) -> Result<u64, Refusal> {
    words(call).map(|[first, ..]| first)
}

/// The words of a call that refuses nothing.
pub(crate) fn told(call: impl FnOnce(&mut [u64]) -> i64) -> Words {
    let mut words = [0; MOST];
    call(&mut words);
    words
}

fn one([length, ..]: Words) -> Needed {
    Needed::One(size(length))
}

/// A place or a length: it was a usize when it was stored.
pub(crate) fn size(word: u64) -> usize {
    word as usize
}

/// A number of 32 bits.
pub(crate) fn low(word: u64) -> u32 {
    word as u32
}

/// A float from its bits.
pub(crate) fn float(word: u64) -> f32 {
    f32::from_bits(low(word))
}

/// A float from the bits that a call answered as its number.
pub(crate) fn float_of(number: i64) -> f32 {
    f32::from_bits(number as u32)
}
