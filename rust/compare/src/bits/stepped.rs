//! A running number's step.

use crate::bits::run_on::{boundaries, next};
use crate::inputs::random::Random;
use crate::lent::answer::Answer;
use crate::options::Options;
use crate::tally::Tally;

const NAME: &str = "stepped";
const RANDOM: u32 = 4_000_000;

pub fn run(options: &Options) -> Vec<Tally> {
    let what = "against `index + zigzag(f)` modulo 2^64";
    let mut tally = Tally::new(options, NAME, what);
    for last in boundaries() {
        for field in boundaries() {
            check(&mut tally, last, field);
        }
    }
    let mut random = Random::new(options.seed, NAME);
    for _ in 0..RANDOM {
        let (last, field) = (random.any_size() as u32, random.any_size() as u32);
        check(&mut tally, last, field);
    }
    vec![tally]
}

pub fn due(last: u32, field: u32) -> Answer {
    Answer::words(&[next(last, field) as u64])
}

fn check(tally: &mut Tally, last: u32, field: u32) {
    tally.call(
        &due(last, field),
        |words| hoodsorrel::raw::stepped(last, field, words),
        || (last, field),
    );
}
