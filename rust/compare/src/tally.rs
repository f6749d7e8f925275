//! Counts inputs and differences, and keeps the first few differences.

use std::fmt::{Debug, Display};

use crate::inputs::random::Random;
use crate::lent::answer::{ask, ask_amply, Answer, Reply};
use crate::options::Options;

const MOST_SHOWN: usize = 3;

pub struct Tally {
    name: &'static str,
    what: &'static str,
    inputs: u64,
    differences: u64,
    shown: Vec<String>,
    lent: Random,
}

impl Tally {
    pub fn new(options: &Options, name: &'static str, what: &'static str) -> Tally {
        Tally {
            name,
            what,
            inputs: 0,
            differences: 0,
            shown: Vec::new(),
            lent: Random::new(options.seed, "lent words"),
        }
    }

    /// Counts one input. `input` is only formed to show a difference.
    pub fn check<T: PartialEq + Display, I: Debug>(
        &mut self,
        ours: T,
        due: T,
        input: impl FnOnce() -> I,
    ) {
        self.inputs += 1;
        if ours != due {
            self.differ(|| format!("input {:02x?} in hex: ours {ours}, due {due}", input()));
        }
    }

    /// Makes one call with lent words and counts it as an input.
    pub fn call<I: Debug>(
        &mut self,
        due: &Answer,
        call: impl FnOnce(&mut [u64]) -> i64,
        input: impl FnOnce() -> I,
    ) {
        let (ours, due) = self.ask(due, call);
        self.check(ours, due, input);
    }

    /// Our reply to one call with lent words, and the one due. It is not counted yet.
    pub fn ask(&mut self, due: &Answer, call: impl FnOnce(&mut [u64]) -> i64) -> (Reply, Reply) {
        ask(&mut self.lent, due, call)
    }

    /// The same with enough words for any answer.
    pub fn ask_amply(
        &mut self,
        due: &Answer,
        call: impl FnOnce(&mut [u64]) -> i64,
    ) -> (Reply, Reply) {
        ask_amply(&mut self.lent, due, call)
    }

    #[cold]
    fn differ(&mut self, show: impl FnOnce() -> String) {
        self.differences += 1;
        if self.shown.len() < MOST_SHOWN {
            self.shown.push(show());
        }
    }

    pub fn print(&self) {
        let Tally {
            name,
            what,
            inputs,
            differences,
            ..
        } = self;
        println!("{name}: {what}: {inputs} inputs, {differences} differences");
        for line in &self.shown {
            println!("  {line}");
        }
    }
}

/// What all comparisons found together.
#[derive(Default)]
pub struct Found {
    inputs: u64,
    differences: u64,
    /// Comparisons that ran on no input.
    idle: u64,
}

impl Found {
    /// Adds what a subject found.
    pub fn add(&mut self, tallies: &[Tally]) {
        self.idle += u64::from(tallies.is_empty());
        for tally in tallies {
            self.inputs += tally.inputs;
            self.differences += tally.differences;
            self.idle += u64::from(tally.inputs == 0);
        }
    }

    pub fn print(&self) {
        println!(
            "compared {} inputs, {} differences",
            self.inputs, self.differences
        );
        if self.idle > 0 {
            println!("{} comparisons ran on no input", self.idle);
        }
    }

    /// Every comparison ran on some input and found no difference, and there was one.
    pub fn is_well(&self) -> bool {
        self.inputs > 0 && self.differences == 0 && self.idle == 0
    }
}

#[cfg(test)]
mod tests {
    use super::{Found, Tally};
    use crate::options::Options;

    /// Whether a subject is well whose tallies compared these pairs of numbers.
    fn well(tallies: &[&[(i64, i64)]]) -> bool {
        let options = Options::parse(std::iter::empty()).expect("no words");
        let tally = |pairs: &&[(i64, i64)]| {
            let mut tally = Tally::new(&options, "name", "what");
            for (ours, due) in *pairs {
                tally.check(*ours, *due, || ());
            }
            tally
        };
        let mut found = Found::default();
        found.add(&tallies.iter().map(tally).collect::<Vec<_>>());
        found.is_well()
    }

    #[test]
    fn no_difference_is_well() {
        assert!(well(&[&[(1, 1)], &[(2, 2), (3, 3)]]));
        assert!(!well(&[&[(1, 1)], &[(2, 2), (3, 4)]]));
    }

    #[test]
    fn no_input_is_not() {
        assert!(!well(&[]));
        assert!(!well(&[&[]]));
        assert!(!well(&[&[(1, 1)], &[]]));
    }
}
