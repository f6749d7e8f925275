//! Points of a submesh, many at once, against a model of document 02, and by their floats against the Rust.

use reference::mesh;
use spell::Part;

use crate::alignment::model::{self, Due, MOST_ASKED};
use crate::alignment::questions::{every_fault, records, some, Fault, Question, FAULTS};
use crate::inputs::payloads::shown;
use crate::inputs::random::Random;
use crate::lent::answer::Answer;
use crate::lent::fill::{before, check, lengths};
use crate::mesh::damage::{damaged, stray_of};
use crate::mesh::lists::LONGER;
use crate::mesh::longs::every_long;
use crate::mesh::model::{followed, parse_meshes};
use crate::mesh::payloads::{self, lone, sized, List};
use crate::mesh::plans::{every_longest, every_plan, planned_list};
use crate::mesh::thirds::every_third;
use crate::mesh::words::{every_list, NOT_FINITE};
use crate::options::Options;
use crate::tally::Tally;

const NAME: &str = "look_up";
/// So many lists of each kind.
const RANDOM: usize = 12_000;
const FAULTY: usize = 300;
const WORDS: usize = 20;
const THIRDS: usize = 2;
/// Counts of questions: none, one, and around the most.
const COUNTS: [usize; 5] = [0, 1, MOST_ASKED - 1, MOST_ASKED, MOST_ASKED + 1];

pub fn run(options: &Options) -> Vec<Tally> {
    let times = if options.long { LONGER } else { 1 };
    let random = &mut Random::new(options.seed, NAME);
    vec![
        limits(options, random),
        questions(options, random, times),
        faults(options, random, times),
        payloads_first(options, random, times),
        by_the_rust(options, random, times),
    ]
}

/// The answer with a buffer of so many items, and what the buffer begins with afterwards.
pub fn answer(due: &Due, lent: usize) -> (Answer, &[u16]) {
    match due {
        Err(refusal) => (Answer::refused(*refusal), &[]),
        Ok((_, vertices)) if vertices.len() > lent => (Answer::needs(vertices.len()), &[]),
        Ok((walked, vertices)) => (Answer::place(*walked), vertices),
    }
}

fn on(tally: &mut Tally, payload: &[u8], question: &Question, due: &Due, lent: usize) {
    let (answer, vertices) = answer(due, lent);
    let mut after = before(lent);
    after[..vertices.len()].copy_from_slice(vertices);
    let Question { number, asked } = question;
    check(
        tally,
        &answer,
        &after,
        |out, stored| hoodsorrel::raw::look_up(payload, *number, asked, out, stored),
        || (question.clone(), lent, shown(payload)),
    );
}

/// With no buffer, with one item less than needed, exactly so many, and more.
fn each_length(tally: &mut Tally, payload: &[u8], question: &Question) {
    let due = model::due(payload, question.number, &question.asked);
    for lent in lengths(question.asked.len()) {
        on(tally, payload, question, &due, lent);
    }
}

/// Every record and the two after them, and of each the counts of questions with the first and last points, those after
/// them, and the largest number there is.
fn at_limits(tally: &mut Tally, random: &mut Random, payload: &[u8]) {
    let meshes = parse_meshes(payload).reading.expect("a good payload");
    for number in (0..records(payload) + 2).chain([u32::MAX]) {
        let submesh = model::submesh(&meshes, number);
        let points = submesh.map_or(1, |submesh| submesh.points.len() as u32);
        for count in COUNTS {
            let asked = some(random, count, points);
            each_length(tally, payload, &Question { number, asked });
            for last in [0, points - 1, points, points + 1, u32::MAX] {
                let mut asked = some(random, count, points);
                if let Some(place) = asked.len().checked_sub(1) {
                    asked[random.below(place + 1)] = last;
                }
                each_length(tally, payload, &Question { number, asked });
            }
        }
        for point in 0..=points {
            let asked = vec![point];
            each_length(tally, payload, &Question { number, asked });
        }
    }
}

fn limits(options: &Options, random: &mut Random) -> Tally {
    let what = "every record and some beyond, 0, 1, 255, 256 and 257 questions, the last point and those after it";
    let mut tally = Tally::new(options, NAME, what);
    for points in [&[1][..], &[300], &[256, 1, 257], &[2, 2, 2]] {
        let meshes = [0, 1].map(|_| sized(random, 5, 70, points));
        at_limits(&mut tally, random, &lone(&meshes[0]));
        let sizes = payloads::any_size(random);
        let both = List::of(meshes.map(Part::Mesh).to_vec(), sizes);
        at_limits(&mut tally, random, &both.spelled().bytes);
    }
    at_limits(&mut tally, random, &[]);
    // As many vertices and points as there can be, and the point at the far end; and points around powers of two.
    let most = [(32_000, 128_000), (1, 128_000), (32_000, 1)];
    let around =
        [1_023, 1_024, 1_025, 2_047, 2_048, 2_049, 65_535, 65_536].map(|points| (70, points));
    for (vertices, points) in most.into_iter().chain(around) {
        let payload = lone(&sized(random, 2, vertices, &[1, points]));
        for count in COUNTS {
            let asked = some(random, count, points as u32);
            each_length(&mut tally, &payload, &Question { number: 1, asked });
        }
        for last in [points - 1, points] {
            let asked = vec![last as u32];
            each_length(&mut tally, &payload, &Question { number: 1, asked });
        }
    }
    tally
}

fn questions(options: &Options, random: &mut Random, times: usize) -> Tally {
    let what = "random lists and questions, with numbers asked again";
    let mut tally = Tally::new(options, "look_up questions", what);
    for _ in 0..RANDOM * times {
        let list = List::random(random);
        for payload in [list.spelled().bytes, stray_of(random, &list)] {
            let count = random.pick(&[0, 1, 2, 3, 5, 9, 40]);
            let question = Question::good(random, &payload, count);
            each_length(&mut tally, &payload, &question);
        }
    }
    tally
}

/// One fault, and two of each pair in either order, with buffers that are too short as well.
fn faults(options: &Options, random: &mut Random, times: usize) -> Tally {
    let what = "questions with one fault or two, the buffer as it was";
    let mut tally = Tally::new(options, "look_up refused", what);
    for _ in 0..FAULTY * times {
        for first in FAULTS {
            for second in every_fault() {
                let payload = List::random(random).spelled().bytes;
                let mut question = Question::good(random, &payload, 3);
                question.spoil(random, &payload, first);
                if let Some(second) = second {
                    question.spoil(random, &payload, second);
                }
                let due = model::due(&payload, question.number, &question.asked);
                assert!(due.is_err(), "{first:?} {second:?}");
                each_length(&mut tally, &payload, &question);
            }
        }
    }
    tally
}

/// Payloads with faults, and a question that is good or is wrong in any way.
fn payloads_first(options: &Options, random: &mut Random, times: usize) -> Tally {
    let what =
        "payloads with one fault or several, before a good question and before each wrong one";
    let mut tally = Tally::new(options, "look_up payloads", what);
    // What can be asked of it can be asked of every list that has a mesh.
    let least = lone(&sized(random, 1, 1, &[1]));
    for _ in 0..RANDOM / 2 * times {
        let spelled = List::random(random).spelled();
        let damaged = damaged(random, &spelled);
        any_question(&mut tally, random, &damaged, &spelled.bytes);
        let crowded = List::crowded(random);
        let payload = crowded.spelled().bytes;
        any_question(&mut tally, random, &payload, &without_last_mesh(crowded));
    }
    for _ in 0..WORDS * times {
        let (mesh, bad) = (payloads::mesh(random), random.pick(&NOT_FINITE));
        every_list(&mesh, bad, |payload, _| {
            any_question(&mut tally, random, payload, &least)
        });
    }
    for _ in 0..THIRDS * times {
        let (mesh, bad) = (payloads::mesh(random), random.pick(&NOT_FINITE));
        let two = lone(&mesh).repeat(2);
        every_third(&mesh, bad, |payload, _| {
            each_question(&mut tally, random, payload, &two)
        });
        every_long(&mesh, |payload, _| {
            each_question(&mut tally, random, payload, &two)
        });
        for plan in every_plan() {
            let payload = planned_list(random, &plan);
            each_question(&mut tally, random, &payload, &least);
        }
    }
    every_longest(|payload, _| any_question(&mut tally, random, payload, &least));
    tally
}

/// The list as it is without its last mesh.
fn without_last_mesh(mut list: List) -> Vec<u8> {
    let is_mesh = |part: &Part| matches!(part, Part::Mesh(_));
    let place = list.parts.iter().rposition(is_mesh).expect("a mesh");
    list.parts.remove(place);
    list.sizes.remove(place);
    list.spelled().bytes
}

fn each_question(tally: &mut Tally, random: &mut Random, payload: &[u8], whole: &[u8]) {
    for fault in every_fault() {
        spoiled_by(tally, random, payload, whole, fault);
    }
}

fn any_question(tally: &mut Tally, random: &mut Random, payload: &[u8], whole: &[u8]) {
    let fault = match random.below(2) {
        0 => Some(random.pick(&FAULTS)),
        _ => None,
    };
    spoiled_by(tally, random, payload, whole, fault);
}

/// A question that is good or has this fault: made from the payload where it is read, and else from a whole one, so
/// that without the payload's fault it would be good too.
fn spoiled_by(
    tally: &mut Tally,
    random: &mut Random,
    payload: &[u8],
    whole: &[u8],
    fault: Option<Fault>,
) {
    let asked_of = match parse_meshes(payload).reading {
        Ok(_) => payload,
        Err(_) => whole,
    };
    let mut question = Question::good(random, asked_of, 2);
    if let Some(fault) = fault {
        question.spoil(random, asked_of, fault);
    }
    let due = model::due(payload, question.number, &question.asked);
    let lent = random.pick(&[0, 1, question.asked.len(), question.asked.len() + 2]);
    on(tally, payload, &question, &due, lent);
}

/// The pool words of the vertices that are looked up are the Rust's floats at those points.
fn by_the_rust(options: &Options, random: &mut Random, times: usize) -> Tally {
    let what = "the floats of the vertices that are looked up against those of mesh::parse_meshes at the same points";
    let mut tally = Tally::new(options, "look_up by the Rust", what);
    for _ in 0..RANDOM * times {
        let payload = List::random(random).spelled().bytes;
        let model = parse_meshes(&payload);
        if model.beyond_rust(&payload) {
            continue;
        }
        let (Ok(meshes), Some(rust)) = (model.reading, mesh::parse_meshes(&payload)) else {
            continue;
        };
        let mut number = 0;
        for (read, theirs) in meshes.iter().zip(&rust) {
            for submesh in &theirs.submeshes {
                let points = submesh.vertices.len() / 5;
                let count = random.below(12);
                let asked = some(random, count, points as u32);
                let mut vertices = vec![0; count];
                let walked =
                    hoodsorrel::alignment::look_up(&payload, number, &asked, &mut vertices);
                let floats = followed(&read.pool, &read.coordinates, &vertices);
                let due = asked.iter().flat_map(|k| {
                    let at = 5 * *k as usize;
                    submesh.vertices[at..at + 5].iter().map(|x| x.to_bits())
                });
                let same = walked.is_ok() && floats.eq(due);
                tally.check(same, true, || (number, asked.clone(), shown(&payload)));
                number += 1;
            }
        }
    }
    tally
}
