//! Where the points of a submesh stand, against a model of documents 01 and 02.

use spell::Part;

use crate::alignment::model::place;
use crate::alignment::questions::records;
use crate::inputs::payloads::shown;
use crate::inputs::random::Random;
use crate::lent::answer::Answer;
use crate::mesh::damage::{damaged, stray_of};
use crate::mesh::lists::LONGER;
use crate::mesh::payloads::{lone, sized, List};
use crate::mesh::plans::{every_longest, every_plan, planned_list};
use crate::options::Options;
use crate::tally::Tally;

const NAME: &str = "find_submesh";
const RANDOM: usize = 24_000;

pub fn run(options: &Options) -> Vec<Tally> {
    let times = if options.long { LONGER } else { 1 };
    let random = &mut Random::new(options.seed, NAME);
    let what =
        "every record of random lists and some beyond, whole, spelled with long sizes, and damaged";
    let mut tally = Tally::new(options, NAME, what);
    each_record(&mut tally, &[]);
    for (pool, vertices, points) in [
        (1, 1, &[1][..]),
        (10_000, 32_000, &[128_000, 1]),
        (3, 16_384, &[7; 9]),
        (3, 16_385, &[7; 9]),
    ] {
        let meshes = [0, 1].map(|_| sized(random, pool, vertices, points));
        each_record(&mut tally, &lone(&meshes[0]));
        let size = crate::mesh::payloads::any_size(random);
        let list = List::of(meshes.map(Part::Mesh).to_vec(), size);
        each_record(&mut tally, &list.spelled().bytes);
    }
    for _ in 0..RANDOM * times {
        let list = List::random(random);
        let spelled = list.spelled();
        each_record(&mut tally, &spelled.bytes);
        each_record(&mut tally, &damaged(random, &spelled));
        each_record(&mut tally, &stray_of(random, &list));
    }
    for plan in every_plan() {
        each_record(&mut tally, &planned_list(random, &plan));
    }
    every_longest(|payload, _| each_record(&mut tally, payload));
    vec![tally]
}

/// The answer that is due.
pub fn answer(payload: &[u8], number: u32) -> Answer {
    match place(payload, number) {
        Ok(words) => Answer::words(&words),
        Err(refusal) => Answer::refused(refusal),
    }
}

/// Each record, the two after the last, and the largest number there is.
fn each_record(tally: &mut Tally, payload: &[u8]) {
    for number in (0..records(payload) + 2).chain([u32::MAX]) {
        let due = answer(payload, number);
        let call = |words: &mut [u64]| hoodsorrel::raw::find_submesh(payload, number, words);
        let (ours, due) = tally.ask(&due, call);
        tally.check(ours, due, || (number, shown(payload)));
    }
}
