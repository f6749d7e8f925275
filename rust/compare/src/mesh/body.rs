//! One mesh body and its four tables.

use std::slice::from_ref;

use reference::mesh::{self, Projection};
use spell::{Spelled, Tables};

use crate::inputs::payloads::{shown, LONGEST};
use crate::inputs::random::Random;
use crate::lent::answer::Answer;
use crate::lent::tables::{self, lengths, refused_lengths, Table};
use crate::mesh::damage::{damaged, every_byte, every_stray, stray};
use crate::mesh::drawing::Drawing;
use crate::mesh::lists::{fits, LONGER};
use crate::mesh::model::{self, Mesh};
use crate::mesh::payloads::{self, large_counts, sized};
use crate::mesh::words::{every_body, m1_and_infinite, spoil_word, NOT_FINITE};
use crate::options::Options;
use crate::tally::Tally;

const NAME: &str = "mesh";
/// So many bodies are damaged in every place.
const BODIES: usize = 60;
/// So many bodies are taken with some damaged copies.
const RANDOM: usize = 12_000;
/// Damaged copies of a random body.
const COPIES: usize = 3;

pub type Due = Result<Tables, i64>;

struct Bodies {
    random: Random,
    model: Tally,
    parsed: Tally,
    measured: Tally,
    beyond: Tally,
    order: Tally,
}

pub fn run(options: &Options) -> Vec<Tally> {
    let mut bodies = Bodies::new(options);
    let times = if options.long { LONGER } else { 1 };
    for _ in 0..BODIES * times {
        bodies.every_damage();
    }
    for _ in 0..RANDOM * times {
        bodies.random_damage();
    }
    bodies.large();
    bodies.longest();
    let Bodies {
        model,
        parsed,
        measured,
        beyond,
        order,
        ..
    } = bodies;
    vec![model, parsed, measured, beyond, order]
}

impl Bodies {
    fn new(options: &Options) -> Bodies {
        let tally = |name, what| Tally::new(options, name, what);
        Bodies {
            random: Random::new(options.seed, NAME),
            model: tally(
                "mesh bodies",
                "a model's tables, points followed to five pool words, against mesh::parse_mesh",
            ),
            parsed: tally(NAME, "answer and tables against the model"),
            measured: tally("mesh measured", "the same lengths and refusals"),
            beyond: tally(
                "mesh beyond the Rust",
                "more than 65536 submeshes or 67108864 bytes, or a word that is not finite, against the model",
            ),
            order: tally(
                "mesh order",
                "the model's refusal against the first in field order of a word that is not finite and another fault",
            ),
        }
    }

    /// Of a mesh whose words are finite, and with one that is not.
    fn every_damage(&mut self) {
        let mut mesh = payloads::mesh(&mut self.random);
        self.every_damage_of(&mesh);
        let bad = self.random.pick(&NOT_FINITE);
        every_body(&mesh, bad, |body, refusal| self.check_order(body, refusal));
        spoil_word(&mut self.random, &mut mesh.pool);
        self.every_damage_of(&mesh);
    }

    fn every_damage_of(&mut self, mesh: &spell::Mesh) {
        let spelled = spell::body(mesh);
        self.check(&spelled.bytes);
        every_byte(&spelled, |body| self.check(body));
        every_stray(mesh, |strayed| self.check(&spell::body(strayed).bytes));
    }

    /// The refusal is known without a look at the body.
    fn check_order(&mut self, body: &[u8], refusal: Option<i64>) {
        let model = model::parse_mesh(body).reading.err();
        self.order
            .check(model.unwrap_or(0), refusal.unwrap_or(0), || shown(body));
        self.check(body);
    }

    fn random_damage(&mut self) {
        let mut mesh = payloads::mesh(&mut self.random);
        let spelled = spell::body(&mesh);
        self.check(&spelled.bytes);
        self.copies(&spelled);
        stray(&mut self.random, &mut mesh);
        self.check(&spell::body(&mesh).bytes);
    }

    fn copies(&mut self, spelled: &Spelled) {
        for _ in 0..COPIES {
            let body = damaged(&mut self.random, spelled);
            self.check(&body);
        }
    }

    fn large(&mut self) {
        for (pool, vertices, points) in large_counts() {
            let mesh = sized(&mut self.random, pool, vertices, &points);
            self.check(&spell::body(&mesh).bytes);
        }
        let all = sized(&mut self.random, 10_000, 32_000, &[128_000, 1, 128_000]);
        let spelled = spell::body(&all);
        self.check(&spelled.bytes);
        self.copies(&spelled);
    }

    /// As long as a body may be, and one byte longer.
    fn longest(&mut self) {
        for mesh in m1_and_infinite() {
            let mut body = spell::body(&mesh).bytes;
            self.check(&body);
            body.resize(LONGEST, 0);
            self.check(&body);
            body.push(0);
            self.check(&body);
        }
    }

    fn check(&mut self, body: &[u8]) {
        let model = model::parse_mesh(body);
        let beyond = model.beyond_rust(body);
        let reading = model.reading;
        let tally = if beyond {
            &mut self.beyond
        } else {
            self.model
                .check(agrees(body, &reading), true, || shown(body));
            &mut self.parsed
        };
        let due = reading.map(Tables::from);
        parse(tally, &mut self.random, body, &due);
        measure(&mut self.measured, body, &due);
    }
}

/// Whether the Rust accepts what the model does and draws the same.
pub fn agrees(body: &[u8], model: &Result<Mesh, i64>) -> bool {
    match (mesh::parse_mesh(body), model) {
        (Some(rust), Ok(model)) => {
            let numbers = model.coordinates.clone();
            let meshes = vec![rust];
            let rust = Drawing::of_rust(&Projection { meshes }, numbers);
            rust == Drawing::of_model(from_ref(model))
        }
        (None, Err(_)) => true,
        _ => false,
    }
}

impl From<Mesh> for Tables {
    fn from(mesh: Mesh) -> Tables {
        let mut tables = Tables {
            pool: mesh.pool,
            coordinates: mesh.coordinates,
            ..Tables::default()
        };
        for submesh in mesh.submeshes {
            tables.push_submesh(submesh.texture, submesh.mode, submesh.points.into_iter());
        }
        tables
    }
}

fn parse(tally: &mut Tally, random: &mut Random, body: &[u8], due: &Due) {
    let lent = match due {
        Ok(tables) => lengths(random, tables.lengths()),
        Err(_) => refused_lengths(random),
    };
    for lent in lent {
        parse_on(tally, body, due, lent);
    }
}

/// The lengths of the tables.
pub fn measured(due: &Due) -> Answer {
    match due {
        Err(refusal) => Answer::refused(*refusal),
        Ok(tables) => Answer::words(&tables.lengths().map(|n| n as u64)),
    }
}

fn measure(tally: &mut Tally, body: &[u8], due: &Due) {
    tally.call(
        &measured(due),
        |words| hoodsorrel::raw::measure_mesh(body, words),
        || shown(body),
    );
}

/// The answer on buffers of these lengths, and the tables that are put into them.
pub fn parsed(due: &Due, lent: [usize; 4]) -> (Answer, Option<&Tables>) {
    match due {
        Err(refusal) => (Answer::refused(*refusal), None),
        Ok(tables) if !fits(tables.lengths(), lent) => {
            (Answer::needs_each(&tables.lengths()), None)
        }
        Ok(tables) => {
            let used = tables.lengths().map(|n| n as u64);
            (Answer::words(&used), Some(tables))
        }
    }
}

fn parse_on(tally: &mut Tally, body: &[u8], due: &Due, lent: [usize; 4]) {
    let unchanged = Tables::default();
    let (answer, put) = parsed(due, lent);
    let after = put.unwrap_or(&unchanged);
    let mut pool = Table::new("pool word", &after.pool, lent[0]);
    let mut coordinates = Table::new("coordinate", &after.coordinates, lent[1]);
    let mut submeshes = Table::new("submesh word", &after.submeshes, lent[2]);
    let mut points = Table::new("point", &after.points, lent[3]);
    let replies = tally.ask_amply(&answer, |words| {
        hoodsorrel::raw::parse_mesh(
            body,
            pool.lent(),
            coordinates.lent(),
            submeshes.lent(),
            points.lent(),
            words,
        )
    });
    let buffers: [&dyn tables::Buffer; 4] = [&pool, &coordinates, &submeshes, &points];
    tables::check(tally, replies, &buffers, || (lent, shown(body)));
}
