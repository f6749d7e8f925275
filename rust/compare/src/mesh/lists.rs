//! Mesh lists: drawn, measured, and their records alone.

use reference::mesh::{self, Projection};
use spell::{Mesh, Part, Size, Spelled};

use crate::inputs::payloads::shown;
use crate::inputs::random::Random;
use crate::lent::answer::Answer;
use crate::lent::tables::{self, lengths, refused_lengths, Table};
use crate::mesh::damage::{damaged, every_byte, every_size, every_stray_of, stray_list, stray_of};
use crate::mesh::drawing::Drawing;
use crate::mesh::longs::every_long;
use crate::mesh::model;
use crate::mesh::payloads::{large_counts, lone, m1, mesh, sized, List};
use crate::mesh::plans::{every_longest, every_plan, first_fault, planned_list};
use crate::mesh::thirds::{every_number, every_third, SKIPPED};
use crate::mesh::words::{every_list, spoil_list, NOT_FINITE};
use crate::options::Options;
use crate::refusals::THIRD_MESH;
use crate::tally::Tally;

const NAME: &str = "meshes";
/// So many lists are damaged in every place.
const LISTS: usize = 60;
/// So many meshes are the third of a list.
const THIRDS: usize = 12;
/// So many stand in boxes whose long size is at a limit.
const LONGS: usize = 12;
/// So many lists are spelled with every choice of sizes.
const SPELLINGS: usize = 4000;
/// So many lists are made by each plan.
const PLANS: usize = 8;
/// So many lists are taken with some damaged copies.
const RANDOM: usize = 32_000;
/// With `--long` there are so many times as many.
pub const LONGER: usize = 5;
/// Damaged copies of a random list.
const COPIES: usize = 3;
const MANY_MESHES: usize = 1000;

pub type Due = Result<Drawing, i64>;

struct Lists {
    random: Random,
    model: Tally,
    parsed: Tally,
    measured: Tally,
    records: Tally,
    beyond: Tally,
    order: Tally,
    spellings: Tally,
}

pub fn run(options: &Options) -> Vec<Tally> {
    let mut lists = Lists::new(options);
    let times = if options.long { LONGER } else { 1 };
    for _ in 0..LISTS * times {
        lists.every_damage();
        lists.words();
    }
    for _ in 0..THIRDS * times {
        lists.thirds();
    }
    for _ in 0..LONGS * times {
        lists.longs();
    }
    for _ in 0..SPELLINGS * times {
        lists.spellings();
    }
    for _ in 0..PLANS * times {
        lists.plans();
    }
    for _ in 0..RANDOM * times {
        lists.random_damage();
    }
    lists.large();
    every_longest(|payload, first| lists.check_order(payload, first));
    let Lists {
        model,
        parsed,
        measured,
        records,
        beyond,
        order,
        spellings,
        ..
    } = lists;
    vec![model, parsed, measured, records, beyond, order, spellings]
}

impl Lists {
    fn new(options: &Options) -> Lists {
        let tally = |name, what| Tally::new(options, name, what);
        Lists {
            random: Random::new(options.seed, NAME),
            model: tally(
                "meshes payloads",
                "a model that numbers the refusals against mesh::parse_meshes",
            ),
            parsed: tally(
                NAME,
                "against mesh::parse_meshes; refusals and coordinate numbers against the model",
            ),
            measured: tally(
                "meshes measured",
                "the same counts, lengths and refusals, also by the viewer's call",
            ),
            records: tally("meshes records", "the same counts, records and refusals"),
            beyond: tally(
                "meshes beyond the Rust",
                "more than 65536 submeshes or 67108864 bytes, a word not finite, a third mesh or a long size, \
                 against the model",
            ),
            order: tally(
                "meshes order",
                "the model's refusal against the first of the faults in payload order",
            ),
            spellings: tally(
                "meshes spellings",
                "lists with any of their sizes long against what is due to the same with short ones",
            ),
        }
    }

    /// Of a list without a fault, of the same with a word that is not finite, and of one with a third mesh.
    fn every_damage(&mut self) {
        let mut list = List::random(&mut self.random);
        self.every_damage_of(&list);
        spoil_list(&mut self.random, &mut list);
        self.every_damage_of(&list);
        let list = List::crowded(&mut self.random);
        self.every_damage_of(&list);
    }

    fn every_damage_of(&mut self, list: &List) {
        let spelled = list.spelled();
        self.check(&spelled.bytes);
        every_byte(&spelled, |payload| self.check(payload));
        every_size(list, |payload| self.check(payload));
        every_stray_of(list, |payload| self.check(payload));
    }

    fn words(&mut self) {
        let (mesh, bad) = self.mesh_and_bad();
        every_list(&mesh, bad, |payload, first| {
            self.check_order(payload, first)
        });
    }

    fn thirds(&mut self) {
        let (mesh, bad) = self.mesh_and_bad();
        every_third(&mesh, bad, |payload, first| {
            self.check_order(payload, first)
        });
        every_number(&mesh, &SKIPPED, |payload, first| {
            self.check_order(payload, first)
        });
    }

    /// Document 01's m1, and any mesh.
    fn longs(&mut self) {
        for mesh in [m1(), mesh(&mut self.random)] {
            every_long(&mesh, |payload, first| self.check_order(payload, first));
        }
    }

    /// Of a list without a fault, and of one with a fault in a body or with a third mesh.
    fn spellings(&mut self) {
        let list = List::random(&mut self.random);
        self.every_spelling(&list);
        let mut faulty = match self.random.below(2) {
            0 => list,
            _ => List::crowded(&mut self.random),
        };
        stray_list(&mut self.random, &mut faulty);
        self.every_spelling(&faulty);
    }

    /// The first spelling has short sizes, so that what is due is the Rust's where it is asked at all.
    fn every_spelling(&mut self, list: &List) {
        let mut due_of_first = None;
        for payload in list.every_spelling() {
            let due = due_of_first.get_or_insert_with(|| due(&payload));
            parse(&mut self.spellings, &mut self.random, &payload, due);
            measure(&mut self.spellings, &payload, due);
            records(&mut self.spellings, &mut self.random, &payload, due);
        }
    }

    /// A mesh, and a word that is not finite.
    fn mesh_and_bad(&mut self) -> (Mesh, u32) {
        let mesh = mesh(&mut self.random);
        (mesh, self.random.pick(&NOT_FINITE))
    }

    fn plans(&mut self) {
        for plan in every_plan() {
            let payload = planned_list(&mut self.random, &plan);
            self.check_order(&payload, first_fault(&plan));
        }
    }

    /// The refusal is known without a look at the payload.
    fn check_order(&mut self, payload: &[u8], refusal: Option<i64>) {
        let model = model::parse_meshes(payload).reading.err();
        let due = refusal.unwrap_or(0);
        self.order.check(model.unwrap_or(0), due, || shown(payload));
        self.check(payload);
    }

    fn random_damage(&mut self) {
        let list = List::random(&mut self.random);
        let spelled = list.spelled();
        self.check(&spelled.bytes);
        for _ in 0..COPIES {
            let payload = damaged(&mut self.random, &spelled);
            self.check(&payload);
        }
        let payload = stray_of(&mut self.random, &list);
        self.check(&payload);
        let crowded = List::crowded(&mut self.random).spelled();
        let payload = damaged(&mut self.random, &crowded);
        self.check(&payload);
    }

    fn large(&mut self) {
        for (pool, vertices, points) in large_counts() {
            let payload = lone(&sized(&mut self.random, pool, vertices, &points));
            self.check(&payload);
        }
        let all = sized(&mut self.random, 10_000, 32_000, &[128_000, 1, 128_000]);
        let spelled = Spelled {
            bytes: lone(&all),
            ..Spelled::default()
        };
        self.check(&spelled.bytes);
        for _ in 0..COPIES {
            let payload = damaged(&mut self.random, &spelled);
            self.check(&payload);
        }
        let parts = (0..MANY_MESHES).map(|_| Part::Mesh(mesh(&mut self.random)));
        let parts = parts.collect();
        let list = List::of(parts, Size::Short).spelled().bytes;
        self.check_order(&list, Some(THIRD_MESH));
    }

    fn check(&mut self, payload: &[u8]) {
        let model = model::parse_meshes(payload);
        let beyond = model.beyond_rust(payload);
        let due = model.reading.map(|meshes| Drawing::of_model(&meshes));
        let random = &mut self.random;
        if beyond {
            parse(&mut self.beyond, random, payload, &due);
            measure(&mut self.beyond, payload, &due);
            records(&mut self.beyond, random, payload, &due);
        } else {
            let rust = rust(payload, &due);
            self.model.check(due == rust, true, || shown(payload));
            parse(&mut self.parsed, random, payload, &rust);
            measure(&mut self.measured, payload, &rust);
            records(&mut self.records, random, payload, &rust);
        }
    }
}

/// What a reader of lists has to draw: the Rust's drawing, or the model's where the Rust is not
/// asked.
pub fn due(payload: &[u8]) -> Due {
    let model = model::parse_meshes(payload);
    let beyond = model.beyond_rust(payload);
    let drawing = model.reading.map(|meshes| Drawing::of_model(&meshes));
    if beyond {
        return drawing;
    }
    rust(payload, &drawing)
}

/// The Rust's answer, with the number of the refusal and the coordinate numbers of the model.
pub fn rust(payload: &[u8], model: &Due) -> Due {
    let (numbers, refusal) = match model {
        Ok(drawing) => (drawing.numbers.clone(), 0),
        Err(refusal) => (Vec::new(), *refusal),
    };
    let meshes = mesh::parse_meshes(payload).ok_or(refusal)?;
    Ok(Drawing::of_rust(&Projection { meshes }, numbers))
}

fn parse(tally: &mut Tally, random: &mut Random, payload: &[u8], due: &Due) {
    let lent = match due {
        Ok(drawing) => lengths(random, drawing.lengths()),
        Err(_) => refused_lengths(random),
    };
    for lent in lent {
        parse_on(tally, payload, due, lent);
    }
}

/// The answer on buffers of these lengths, and what is drawn into them.
pub fn parsed(due: &Due, lent: [usize; 3]) -> (Answer, Option<&Drawing>) {
    match due {
        Err(refusal) => (Answer::refused(*refusal), None),
        Ok(drawing) if !fits(drawing.lengths(), lent) => {
            (Answer::needs_each(&drawing.lengths()), None)
        }
        Ok(drawing) => (Answer::words(&drawing.words()), Some(drawing)),
    }
}

fn parse_on(tally: &mut Tally, payload: &[u8], due: &Due, lent: [usize; 3]) {
    let unchanged = Drawing::default();
    let (answer, drawn) = parsed(due, lent);
    let after = drawn.unwrap_or(&unchanged);
    let mut numbers = Table::new("number", &after.numbers, lent[0]);
    let mut floats = Table::new("float", &after.floats, lent[1]);
    let mut records = Table::new("record word", &after.records, lent[2]);
    let replies = tally.ask_amply(&answer, |words| {
        hoodsorrel::raw::parse_meshes(
            payload,
            numbers.lent(),
            floats.lent(),
            records.lent(),
            words,
        )
    });
    let buffers: [&dyn tables::Buffer; 3] = [&numbers, &floats, &records];
    tables::check(tally, replies, &buffers, || (lent, shown(payload)));
}

pub fn fits<const N: usize>(needed: [usize; N], lent: [usize; N]) -> bool {
    needed
        .iter()
        .zip(lent)
        .all(|(needed, lent)| *needed <= lent)
}

pub fn measured(due: &Due) -> Answer {
    match due {
        Ok(drawing) => Answer::words(&drawing.words()),
        Err(refusal) => Answer::refused(*refusal),
    }
}

fn measure(tally: &mut Tally, payload: &[u8], due: &Due) {
    let answer = measured(due);
    let replies = tally.ask_amply(&answer, |words| {
        hoodsorrel::raw::measure_meshes(payload, words)
    });
    tables::check(tally, replies, &[], || shown(payload));
    let viewer = hoodsorrel::raw::viewer_measure_meshes(payload);
    tally.check(viewer, points_or_refusal(due), || shown(payload));
}

fn points_or_refusal(due: &Due) -> i64 {
    match due {
        Ok(drawing) => {
            let [.., points] = drawing.counts();
            points as i64
        }
        Err(refusal) => -refusal,
    }
}

fn records(tally: &mut Tally, random: &mut Random, payload: &[u8], due: &Due) {
    let lent = match due {
        Ok(drawing) => lengths(random, [drawing.records.len()]),
        Err(_) => refused_lengths(random),
    };
    for [lent] in lent {
        records_on(tally, payload, due, lent);
    }
}

/// The answer on a buffer of this length, and the records that are put into it.
pub fn recorded(due: &Due, lent: usize) -> (Answer, &[u32]) {
    match due {
        Err(refusal) => (Answer::refused(*refusal), &[]),
        Ok(drawing) if drawing.records.len() > lent => (Answer::needs(drawing.records.len()), &[]),
        Ok(drawing) => (Answer::words(&drawing.counts()), &drawing.records),
    }
}

fn records_on(tally: &mut Tally, payload: &[u8], due: &Due, lent: usize) {
    let (answer, after) = recorded(due, lent);
    let mut records = Table::new("record word", after, lent);
    let replies = tally.ask_amply(&answer, |words| {
        hoodsorrel::raw::mesh_records(payload, records.lent(), words)
    });
    tables::check(tally, replies, &[&records], || (lent, shown(payload)));
}
