//! What a call with lent words has to answer, and what it did with the words.

use std::fmt;

use crate::inputs::random::Random;

pub const MOST_STORED: usize = 8;
const ROOM: usize = MOST_STORED + 3;

/// The answer that is due: its number, and the words that belong to it.
pub struct Answer {
    code: i64,
    stored: [u64; MOST_STORED],
    count: usize,
}

impl Answer {
    fn new(code: i64, words: &[u64]) -> Answer {
        let mut stored = [0; MOST_STORED];
        stored[..words.len()].copy_from_slice(words);
        Answer {
            code,
            stored,
            count: words.len(),
        }
    }

    pub fn words(words: &[u64]) -> Answer {
        Answer::new(words.len() as i64, words)
    }

    pub fn place(place: usize) -> Answer {
        Answer::words(&[place as u64])
    }

    pub fn refused(refusal: i64) -> Answer {
        Answer::new(-refusal, &[])
    }

    /// The answer of a call that is lent no words: a number.
    pub fn number(code: i64) -> Answer {
        Answer::new(code, &[])
    }

    /// The bits of floats.
    pub fn floats(floats: &[f32]) -> Answer {
        let mut words = [0; MOST_STORED];
        for (word, x) in words.iter_mut().zip(floats) {
            *word = u64::from(x.to_bits());
        }
        Answer::words(&words[..floats.len()])
    }

    pub fn words_or<const N: usize>(words: Option<[u64; N]>, refusal: i64) -> Answer {
        words.map_or_else(|| Answer::refused(refusal), |words| Answer::words(&words))
    }

    pub fn needs(length: usize) -> Answer {
        Answer::new(hoodsorrel::raw::NEEDS, &[length as u64])
    }

    pub fn needs_each(lengths: &[usize]) -> Answer {
        let mut words = [0; MOST_STORED];
        for (word, length) in words.iter_mut().zip(lengths) {
            *word = *length as u64;
        }
        Answer::new(hoodsorrel::raw::NEEDS, &words[..lengths.len()])
    }

    pub fn code(&self) -> i64 {
        self.code
    }

    /// Stores the words from the first lent one on, or nothing where fewer are lent.
    pub fn store(&self, lent: &mut [u64]) {
        if let Some(first) = lent.get_mut(..self.count) {
            first.copy_from_slice(&self.stored[..self.count]);
        }
    }

    fn reply(&self, lent: usize) -> Reply {
        let mut words = pattern();
        self.store(&mut words[..lent]);
        Reply {
            code: self.code,
            lent,
            words,
        }
    }
}

/// The answer to one call, and the words after it: the lent ones and some beyond them.
#[derive(PartialEq)]
pub struct Reply {
    code: i64,
    lent: usize,
    words: [u64; ROOM],
}

fn pattern() -> [u64; ROOM] {
    std::array::from_fn(|i| 0xA5C3_0F1E_9687_5AB4 ^ i as u64)
}

impl fmt::Display for Reply {
    fn fmt(&self, f: &mut fmt::Formatter) -> fmt::Result {
        write!(f, "{} with", self.code)?;
        for (word, before) in self.words.iter().zip(pattern()) {
            if *word == before {
                write!(f, " -")?;
            } else {
                write!(f, " {word}")?;
            }
        }
        write!(f, " ({} words lent)", self.lent)
    }
}

/// Makes a call with patterned words, now and then with too few. Gives our reply and the one due.
pub fn ask(
    random: &mut Random,
    due: &Answer,
    call: impl FnOnce(&mut [u64]) -> i64,
) -> (Reply, Reply) {
    let lent = match random.below(8) {
        0 => random.below(due.count.max(1)),
        1 => random.pick(&[MOST_STORED + 1, MOST_STORED + 2]),
        2..=4 => due.count.max(1),
        _ => MOST_STORED,
    };
    ask_on(lent, due, call)
}

/// The same with enough words for any answer.
pub fn ask_amply(
    random: &mut Random,
    due: &Answer,
    call: impl FnOnce(&mut [u64]) -> i64,
) -> (Reply, Reply) {
    ask_on(MOST_STORED + random.below(3), due, call)
}

fn ask_on(lent: usize, due: &Answer, call: impl FnOnce(&mut [u64]) -> i64) -> (Reply, Reply) {
    let mut words = pattern();
    let code = call(&mut words[..lent]);
    (Reply { code, lent, words }, due.reply(lent))
}
