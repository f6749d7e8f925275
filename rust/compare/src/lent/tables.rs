//! What a call that fills several lent buffers has to answer and to leave behind.

use std::fmt::{self, Debug};

use crate::inputs::random::Random;
use crate::lent::answer::Reply;
use crate::lent::fill::{before, Item};
use crate::tally::Tally;

/// So many items behind the lent ones have to stay as they were.
const BEYOND: usize = 3;
/// Up to so many items more than needed are lent.
const MORE: usize = 40;
/// So many items are lent where the call is to refuse.
const ROOM: usize = 150;

/// A lent buffer, and the list that it has to begin with after the call.
pub struct Table<'a, T> {
    name: &'static str,
    list: &'a [T],
    items: Vec<T>,
    lent: usize,
    same: fn(T, T) -> bool,
}

impl<'a, T: Item> Table<'a, T> {
    pub fn new(name: &'static str, list: &'a [T], lent: usize) -> Table<'a, T> {
        Table {
            name,
            list,
            items: before(lent + BEYOND),
            lent,
            same: |ours, due| ours == due,
        }
    }

    /// Floats that arithmetic makes: of a NaN only that it is one.
    pub fn made(name: &'static str, list: &'a [T], lent: usize) -> Table<'a, T> {
        Table {
            same: T::same,
            ..Table::new(name, list, lent)
        }
    }

    pub fn lent(&mut self) -> &mut [T] {
        &mut self.items[..self.lent]
    }
}

pub trait Buffer {
    /// The first item that is not as due.
    fn wrong(&self) -> Option<String>;
}

impl<T: Item> Buffer for Table<'_, T> {
    fn wrong(&self) -> Option<String> {
        let Table {
            name,
            list,
            items,
            same,
            ..
        } = self;
        let equal = if items.starts_with(list) {
            list.len()
        } else {
            0
        };
        let due = |place: usize| list.get(place).copied().unwrap_or(T::before(place));
        let place = (equal..items.len()).find(|&place| !same(items[place], due(place)))?;
        let (ours, due) = (items[place], due(place));
        Some(format!("{name} {place} is {ours:x} for {due:x}"))
    }
}

#[derive(PartialEq)]
struct Outcome {
    reply: Reply,
    wrong: Option<String>,
}

impl fmt::Display for Outcome {
    fn fmt(&self, f: &mut fmt::Formatter) -> fmt::Result {
        write!(f, "{}", self.reply)?;
        if let Some(wrong) = &self.wrong {
            write!(f, ", {wrong}")?;
        }
        Ok(())
    }
}

/// Counts one call that was made on the buffers as an input.
pub fn check<I: Debug>(
    tally: &mut Tally,
    (ours, due): (Reply, Reply),
    buffers: &[&dyn Buffer],
    input: impl FnOnce() -> I,
) {
    let ours = Outcome {
        reply: ours,
        wrong: buffers.iter().find_map(|buffer| buffer.wrong()),
    };
    let due = Outcome {
        reply: due,
        wrong: None,
    };
    tally.check(ours, due, input);
}

/// Lengths to lend where these are needed: exactly those, longer ones, one item less for each
/// buffer in turn, and none.
pub fn lengths<const N: usize>(random: &mut Random, needed: [usize; N]) -> Vec<[usize; N]> {
    let longer = needed.map(|n| n + random.below(MORE));
    let mut lengths = vec![needed, longer];
    for place in 0..N {
        let mut short = random.pick(&[needed, longer]);
        if needed[place] > 0 {
            short[place] = needed[place] - 1;
            lengths.push(short);
        }
    }
    lengths.push([0; N]);
    lengths
}

/// Lengths to lend where the call is to refuse.
pub fn refused_lengths<const N: usize>(random: &mut Random) -> Vec<[usize; N]> {
    vec![[0; N], [0; N].map(|_| ROOM + random.below(MORE))]
}
