//! The triangles of records, against a model of document 02.

use hoodsorrel::display::triangles;

use crate::display::model;
use crate::display::records::{at_limits, good, many_points, spoil, FAULTS};
use crate::inputs::random::Random;
use crate::lent::answer::Answer;
use crate::lent::fill::{before, check_exactly, lengths};
use crate::mesh::lists::due as drawing_of;
use crate::mesh::payloads;
use crate::options::Options;
use crate::refusals::RECORDS;
use crate::tally::Tally;

const NAME: &str = "triangles";
const RANDOM: usize = 60_000;
/// With `--long` there are so many times as many.
const LONGER: usize = 10;
/// So many numbers a model's list has at most.
const LISTED: usize = 4096;

pub fn run(options: &Options) -> Vec<Tally> {
    let times = if options.long { LONGER } else { 1 };
    let random = &mut Random::new(options.seed, NAME);
    vec![
        records(options, random, times),
        faults(options, random, times),
        drawings(options, random, times),
    ]
}

/// The answer with a buffer of so many items, and what the buffer begins with afterwards.
pub fn answer(words: &[u32], lent: usize) -> (Answer, Vec<u32>) {
    match model::length(words) {
        None => (Answer::refused(RECORDS), Vec::new()),
        Some(length) if lent < length => (Answer::needs(length), Vec::new()),
        Some(length) => {
            let numbers = model::triangles(words).expect("these are good records");
            (Answer::place(length), numbers)
        }
    }
}

fn on(tally: &mut Tally, words: &[u32], lent: usize) {
    let (due, numbers) = answer(words, lent);
    let mut after = before(lent);
    after[..numbers.len()].copy_from_slice(&numbers);
    check_exactly(
        tally,
        &due,
        &after,
        |out, stored| hoodsorrel::raw::triangles(words, out, stored),
        || (words.to_vec(), lent),
    );
}

/// With no buffer, with one item less than needed, exactly so many, and more.
fn each_length(tally: &mut Tally, words: &[u32]) {
    let needed = model::length(words).filter(|n| *n <= LISTED);
    for lent in lengths(needed.unwrap_or(7)) {
        on(tally, words, lent);
    }
}

fn records(options: &Options, random: &mut Random, times: usize) -> Tally {
    let what =
        "against a model of document 02: no records, many, and every limit with one beyond it";
    let mut tally = Tally::new(options, "triangles", what);
    each_length(&mut tally, &[]);
    for words in at_limits().into_iter().chain(many_points(random)) {
        each_length(&mut tally, &words);
    }
    for _ in 0..RANDOM * times {
        let words = good(random, 7).concat();
        each_length(&mut tally, &words);
        let any: Vec<u32> = (0..random.below(12)).map(|_| random.word()).collect();
        each_length(&mut tally, &any);
    }
    tally
}

/// One fault, and two of each pair in either order, with buffers that are too short as well.
fn faults(options: &Options, random: &mut Random, times: usize) -> Tally {
    let what = "records with one fault or two, the buffer as it was";
    let mut tally = Tally::new(options, "triangles refused", what);
    for _ in 0..RANDOM / 60 * times {
        for first in FAULTS {
            for second in FAULTS.map(Some).into_iter().chain([None]) {
                let mut words = good(random, 4).concat();
                spoil(random, &mut words, first);
                if let Some(second) = second {
                    spoil(random, &mut words, second);
                }
                assert_eq!(model::length(&words), None, "{first:?} {second:?}");
                let lent = random.below(200);
                on(&mut tally, &words, lent);
            }
        }
    }
    tally
}

/// The records of random mesh lists: accepted where no mode is above 2, and every number below the count of points.
fn drawings(options: &Options, random: &mut Random, times: usize) -> Tally {
    let what = "the records of drawn mesh lists, their modes of 0 to 2 and as they come";
    let mut tally = Tally::new(options, "triangles drawn", what);
    for _ in 0..RANDOM / 20 * times {
        let payload = payloads::List::random(random).spelled().bytes;
        let Ok(drawing) = drawing_of(&payload) else {
            continue;
        };
        each_length(&mut tally, &drawing.records);
        let mut known = drawing.records.clone();
        for mode in known.iter_mut().skip(2).step_by(5) {
            *mode %= 3;
        }
        each_length(&mut tally, &known);
        let points = (drawing.floats.len() / 5) as u32;
        let mut numbers = vec![u32::MAX; 3 * points as usize];
        let made = triangles(&known, &mut numbers);
        let all_drawn =
            made.is_ok_and(|count| numbers[..count].iter().all(|point| *point < points));
        tally.check(all_drawn, true, || payload);
    }
    tally
}
