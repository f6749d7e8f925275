//! Makes scene calls on buffers of several lengths and counts them.

use crate::inputs::payloads::shown;
use crate::inputs::random::Random;
use crate::lent::answer::Answer;
use crate::lent::tables::{self, lengths, refused_lengths, Table};
use crate::mesh::lists::fits;
use crate::options::Options;
use crate::scene::model::{due, Call, Due, Scene};
use crate::tally::Tally;

/// What is lent of a buffer that is not used, other than nothing.
const UNUSED: [usize; 2] = [1, 2000];

pub struct Calls {
    pub tally: Tally,
    pub random: Random,
}

impl Calls {
    pub fn new(options: &Options, name: &'static str, what: &'static str) -> Calls {
        Calls {
            tally: Tally::new(options, name, what),
            random: Random::new(options.seed, name),
        }
    }

    /// Exact, longer and empty buffers, and each in turn and all together one item short.
    pub fn some(&mut self, call: Call) {
        self.some_due(call, &due(call));
    }

    /// The same where it is known what is due.
    pub fn some_due(&mut self, call: Call, due: &Due) {
        let lent = match due {
            Err(_) => refused_lengths(&mut self.random),
            Ok(scene) => {
                let needed = scene.lengths();
                let mut lent = lengths(&mut self.random, needed);
                lent.push(needed.map(|n| n.saturating_sub(1)));
                lent
            }
        };
        self.on_each(call, due, lent);
    }

    /// Each buffer empty, one item short, exact and longer, with all of these of the others.
    pub fn every(&mut self, call: Call) {
        let due = due(call);
        let lent = match &due {
            Err(_) => refused_lengths(&mut self.random),
            Ok(scene) => every_length(&mut self.random, scene.lengths()),
        };
        self.on_each(call, &due, lent);
    }

    fn on_each(&mut self, call: Call, due: &Due, lent: Vec<[usize; 3]>) {
        for lent in lent {
            self.on(call, due, lent);
        }
    }

    /// One call on buffers of these lengths. A refusal leaves all three as they were.
    pub fn on(&mut self, call: Call, due: &Due, lent: [usize; 3]) {
        let (answer, drawn) = drawn(due, lent);
        let floats = drawn.map_or(&[][..], |scene| &scene.floats);
        let mut numbers = Table::new(
            "number",
            drawn.map_or(&[][..], |scene| &scene.numbers),
            lent[0],
        );
        let mut floats = match call.kind {
            2 => Table::new("float", floats, lent[1]),
            _ => Table::made("float", floats, lent[1]),
        };
        let mut records = Table::new(
            "record word",
            drawn.map_or(&[][..], |scene| &scene.records),
            lent[2],
        );
        let replies = self.tally.ask(&answer, |words| {
            hoodsorrel::raw::scene(
                call.kind,
                call.payload,
                call.given,
                numbers.lent(),
                floats.lent(),
                records.lent(),
                words,
            )
        });
        let buffers: [&dyn tables::Buffer; 3] = [&numbers, &floats, &records];
        tables::check(&mut self.tally, replies, &buffers, || {
            (call.kind, numbers_of(call), lent, shown(call.payload))
        });
    }
}

/// The answer on buffers of these lengths, and what is drawn into them.
pub fn drawn(due: &Due, lent: [usize; 3]) -> (Answer, Option<&Scene>) {
    match due {
        Err(refusal) => (Answer::refused(*refusal), None),
        Ok(scene) if !fits(scene.lengths(), lent) => (Answer::needs_each(&scene.lengths()), None),
        Ok(scene) => (Answer::words(&scene.words()), Some(scene)),
    }
}

/// Rings, sectors, cells, the bits of the radius, F.
fn numbers_of(call: Call) -> [u32; 5] {
    let given = call.given;
    [
        given.rings,
        given.sectors,
        given.cells,
        given.radius.to_bits(),
        given.face_width,
    ]
}

fn every_length(random: &mut Random, needed: [usize; 3]) -> Vec<[usize; 3]> {
    let choices = needed.map(|n| choices(random, n));
    let mut lent = Vec::new();
    for &numbers in &choices[0] {
        for &floats in &choices[1] {
            lent.extend(choices[2].iter().map(|&records| [numbers, floats, records]));
        }
    }
    lent
}

fn choices(random: &mut Random, needed: usize) -> Vec<usize> {
    if needed == 0 {
        return vec![0, random.pick(&UNUSED)];
    }
    let mut choices = vec![0, needed - 1, needed, needed + 1 + random.below(40)];
    choices.dedup();
    choices
}
