//! The writer of a mesh box.

use std::mem::replace;

use reference::mesh;
use spell::{field_width, Mesh, Tables, FIELDS, ROW};

use crate::inputs::payloads::{shown, LONGEST};
use crate::inputs::random::Random;
use crate::lent::answer::Answer;
use crate::lent::tables::{self, lengths, refused_lengths, Table};
use crate::mesh::lists::LONGER;
use crate::mesh::model::{followed, HEADER, MOST_POINTS, MOST_SUBMESHES};
use crate::mesh::payloads::{self, large_counts, lone, m1, sized};
use crate::mesh::spoils::{every_place, Spoil, SPOILS, WORD};
use crate::mesh::words::{every_word, FINITE, NOT_FINITE};
use crate::mesh::writer_model::write_mesh;
use crate::options::Options;
use crate::refusals::{BAD_WORD, NO_MESH};
use crate::tally::Tally;

const NAME: &str = "mesh_writer";
/// So many small meshes are written.
const RANDOM: usize = 120_000;
/// So many small boxes are read.
const BOXES: usize = 50_000;
/// So many meshes are spoiled in every place.
const MESHES: usize = 60;
/// So many meshes are spoiled in each way and in each two ways.
const SPOILED: usize = 4;
/// So many large meshes, with several counts around their limits.
const LARGE: usize = 60;
const POOLS: [usize; 8] = [1, 2, 4_097, 8_192, 9_999, 10_000, 10_000, 10_001];
const VERTICES: [usize; 8] = [1, 5, 16_384, 16_385, 31_999, 32_000, 32_000, 32_001];
const POINTS: [usize; 8] = [1, 2, 3, 65_537, 127_999, 128_000, 128_000, 128_001];
/// Vertices of the longest boxes. These leave 0, 1 and 14 bits of the 67108864 bytes, so that the
/// third box is a byte shorter, and one point more is 16, 14 and 1 bits too long.
const LONGEST_VERTICES: [usize; 3] = [32_000, 16_380, 16_362];
/// Bits of a submesh before its points.
const ROW_BITS: usize = 8 + 8 + 32;
const MOST_SHOWN: usize = 40;
const SAME: &str = "the same";
const TOO_LONG: &str = "a box that is too long";

/// The box, or the number of the refusal.
pub type Due = Result<Vec<u8>, i64>;

struct Writer {
    random: Random,
    written: Tally,
    spoiled: Tally,
    rust: Tally,
    rounds: Tally,
    boxes: Tally,
}

pub fn run(options: &Options) -> Vec<Tally> {
    let mut writer = Writer::new(options);
    let times = if options.long { LONGER } else { 1 };
    writer.check(&Tables::from(&m1()));
    for _ in 0..RANDOM * times {
        let mesh = payloads::mesh(&mut writer.random);
        writer.check(&Tables::from(&mesh));
    }
    for _ in 0..BOXES * times {
        writer.small_box();
    }
    for _ in 0..MESHES * times {
        writer.every_spoil();
    }
    for _ in 0..SPOILED * times {
        writer.spoils();
    }
    writer.large();
    for _ in 0..LARGE * times {
        writer.several_limits();
    }
    writer.longest(options.long);
    let Writer {
        written,
        spoiled,
        rust,
        rounds,
        boxes,
        ..
    } = writer;
    vec![written, spoiled, rust, rounds, boxes]
}

impl Writer {
    fn new(options: &Options) -> Writer {
        let tally = |name, what| Tally::new(options, name, what);
        Writer {
            random: Random::new(options.seed, NAME),
            written: tally(
                NAME,
                "answer and buffer against a model that spells bit by bit",
            ),
            spoiled: tally(
                "mesh_writer spoiled",
                "tables with one or two faults that 13 or 17 names, the buffer as it was",
            ),
            rust: tally(
                "mesh_writer read by the Rust",
                "written boxes, their points followed to five pool words",
            ),
            rounds: tally(
                "mesh_writer round trips",
                "tables written, read with parse_mesh, and written again",
            ),
            boxes: tally(
                "mesh_writer boxes",
                "boxes read with parse_mesh and written, their free bits 0 and nothing behind them",
            ),
        }
    }

    fn check(&mut self, tables: &Tables) {
        let due = write_mesh(tables);
        write(&mut self.written, &mut self.random, tables, &due, &[]);
        if due.is_ok() {
            let submeshes = tables.submeshes.len() / ROW;
            self.round_trip(tables, submeshes <= MOST_SUBMESHES as usize);
        }
    }

    fn round_trip(&mut self, tables: &Tables, by_rust: bool) {
        let first = written(tables);
        if by_rust {
            let read = first
                .as_ref()
                .is_some_and(|first| rust_reads(first, tables));
            self.rust.check(read, true, || excerpt(tables));
        }
        self.rounds
            .check(round(tables, first), SAME, || excerpt(tables));
    }

    /// A box of the payload generator, as it is and without what is free in it.
    fn small_box(&mut self) {
        let mesh = payloads::mesh(&mut self.random);
        let plain = lone(&Mesh {
            free: 0,
            rest: Vec::new(),
            ..mesh.clone()
        });
        for payload in [&plain, &lone(&mesh)] {
            let back = read(&payload[HEADER..]).and_then(|tables| written(&tables));
            self.boxes
                .check(back.as_ref() == Some(&plain), true, || shown(payload));
        }
    }

    fn every_spoil(&mut self) {
        let mesh = payloads::mesh(&mut self.random);
        every_word(&mesh, &FINITE, |mesh| self.check(&Tables::from(mesh)));
        every_word(&mesh, &NOT_FINITE, |mesh| {
            self.check_refused(BAD_WORD, &Tables::from(mesh), &[]);
        });
        let mut tables = Tables::from(&mesh);
        every_place(&tables, |tables| self.check_refused(NO_MESH, tables, &[]));
        WORD.1(&mut tables, &mut self.random);
        every_place(&tables, |tables| self.check_refused(NO_MESH, tables, &[]));
    }

    /// Each spoil alone and with a word that is not finite, and each two, which may cancel out.
    fn spoils(&mut self) {
        for first in SPOILS {
            let tables = self.spoil(&[first]);
            self.check_refused(NO_MESH, &tables, &[first.0]);
            let tables = self.spoil(&[first, WORD]);
            self.check_refused(NO_MESH, &tables, &[first.0, WORD.0]);
            for second in SPOILS {
                let tables = self.spoil(&[first, second]);
                let due = write_mesh(&tables);
                let faults = [first.0, second.0];
                write(&mut self.spoiled, &mut self.random, &tables, &due, &faults);
            }
        }
    }

    /// The tables of a small mesh after these spoils.
    fn spoil(&mut self, spoils: &[Spoil]) -> Tables {
        let mesh = payloads::mesh(&mut self.random);
        let mut tables = Tables::from(&mesh);
        for (_, spoil) in spoils {
            spoil(&mut tables, &mut self.random);
        }
        tables
    }

    /// Checks that both the model and we refuse with this number.
    fn check_refused(&mut self, refusal: i64, tables: &Tables, faults: &[&str]) {
        let refused = Err(refusal);
        let agrees = write_mesh(tables) == refused;
        self.spoiled
            .check(agrees, true, || (faults.to_vec(), excerpt(tables)));
        write(
            &mut self.spoiled,
            &mut self.random,
            tables,
            &refused,
            faults,
        );
    }

    fn large(&mut self) {
        for (pool, vertices, points) in large_counts() {
            let mesh = sized(&mut self.random, pool, vertices, &points);
            self.check(&Tables::from(&mesh));
        }
        let all = sized(&mut self.random, 10_000, 32_000, &[128_000, 1, 128_000]);
        self.check(&Tables::from(&all));
    }

    fn several_limits(&mut self) {
        let random = &mut self.random;
        let submeshes = 1 + random.below(3);
        let points: Vec<usize> = (0..submeshes).map(|_| random.pick(&POINTS)).collect();
        let (pool, vertices) = (random.pick(&POOLS), random.pick(&VERTICES));
        let mesh = sized(random, pool, vertices, &points);
        self.check(&Tables::from(&mesh));
    }

    /// Boxes as long as they may be, and with a point more. To read one takes the Rust 700 MB.
    fn longest(&mut self, by_rust: bool) {
        for vertices in LONGEST_VERTICES {
            let mut tables = fullest(&mut self.random, vertices);
            let due = write_mesh(&tables);
            write(&mut self.written, &mut self.random, &tables, &due, &[]);
            self.round_trip(&tables, by_rust);
            let finite = replace(&mut tables.pool[0], NOT_FINITE[0]);
            self.check_refused(BAD_WORD, &tables, &[WORD.0]);
            if let Some(count) = tables.submeshes.last_mut() {
                *count += 1;
            }
            tables.points.push(0);
            self.check_refused(NO_MESH, &tables, &[TOO_LONG, WORD.0]);
            tables.pool[0] = finite;
            self.check_refused(NO_MESH, &tables, &[TOO_LONG]);
        }
    }
}

/// A mesh whose box has no room for a point more.
fn fullest(random: &mut Random, vertices: usize) -> Tables {
    let width = field_width(vertices) as usize;
    let most = MOST_POINTS as usize;
    let before = HEADER + 4 * 4 + (FIELDS * vertices).div_ceil(8);
    let room = 8 * (LONGEST - before);
    let submeshes = room.div_ceil(ROW_BITS + most * width);
    let points = (room - submeshes * ROW_BITS) / width;
    let mut counts = vec![most; submeshes - 1];
    counts.push(points - most * (submeshes - 1));
    Tables::from(&sized(random, 1, vertices, &counts))
}

/// Writes on buffers of several lengths. The faults of the tables are only shown.
fn write(tally: &mut Tally, random: &mut Random, tables: &Tables, due: &Due, faults: &[&str]) {
    let lent = match due {
        Ok(written) => lengths(random, [written.len()]),
        Err(_) => refused_lengths(random),
    };
    for [lent] in lent {
        write_on(tally, tables, due, faults, lent);
    }
}

/// The answer on a buffer of this length, and the box that is put into it.
pub fn put(due: &Due, lent: usize) -> (Answer, &[u8]) {
    match due {
        Err(refusal) => (Answer::refused(*refusal), &[]),
        Ok(written) if written.len() > lent => (Answer::needs(written.len()), &[]),
        Ok(written) => (Answer::place(written.len()), written),
    }
}

fn write_on(tally: &mut Tally, tables: &Tables, due: &Due, faults: &[&str], lent: usize) {
    let (answer, after) = put(due, lent);
    let mut out = Table::new("byte", after, lent);
    let replies = tally.ask(&answer, |words| call(tables, out.lent(), words));
    tables::check(tally, replies, &[&out], || {
        (faults.to_vec(), lent, excerpt(tables))
    });
}

fn call(tables: &Tables, out: &mut [u8], words: &mut [u64]) -> i64 {
    hoodsorrel::raw::write_mesh(
        &tables.pool,
        &tables.coordinates,
        &tables.submeshes,
        &tables.points,
        out,
        words,
    )
}

/// Our box, in a buffer of the length that we ask for.
fn written(tables: &Tables) -> Option<Vec<u8>> {
    let mut words = [0];
    if call(tables, &mut [], &mut words) != hoodsorrel::raw::NEEDS {
        return None;
    }
    let mut out = vec![0xFF; words[0] as usize];
    (call(tables, &mut out, &mut words) == 1).then_some(out)
}

/// Our tables, in buffers of the lengths that we ask for.
fn read(body: &[u8]) -> Option<Tables> {
    let mut needed = [0; 4];
    if parse(body, &mut Tables::default(), &mut needed) != hoodsorrel::raw::NEEDS {
        return None;
    }
    let mut tables = Tables::zeros(needed.map(|n| n as usize));
    (parse(body, &mut tables, &mut needed) == 4).then_some(tables)
}

fn parse(body: &[u8], tables: &mut Tables, words: &mut [u64]) -> i64 {
    hoodsorrel::raw::parse_mesh(
        body,
        &mut tables.pool,
        &mut tables.coordinates,
        &mut tables.submeshes,
        &mut tables.points,
        words,
    )
}

/// What becomes of tables on the way from their box back to it.
fn round(tables: &Tables, first: Option<Vec<u8>>) -> &'static str {
    let Some(first) = first else {
        return "not written";
    };
    let Some(back) = read(&first[HEADER..]) else {
        return "not read";
    };
    if back != *tables {
        return "read as another mesh";
    }
    if written(&back) != Some(first) {
        return "another box the second time";
    }
    SAME
}

/// Whether the Rust reads one mesh with these submeshes, and the five pool words of each point.
fn rust_reads(payload: &[u8], tables: &Tables) -> bool {
    let meshes = mesh::parse_meshes(payload);
    let Some([mesh::Mesh { submeshes }]) = meshes.as_deref() else {
        return false;
    };
    let rows = submeshes.iter().flat_map(|submesh| {
        let count = submesh.vertex_count() as u32;
        [submesh.texture_id.into(), submesh.mode.into(), count]
    });
    let vertices = submeshes.iter().flat_map(|submesh| &submesh.vertices);
    let points = followed(&tables.pool, &tables.coordinates, &tables.points);
    rows.eq(tables.submeshes.iter().copied()) && vertices.map(|x| x.to_bits()).eq(points)
}

/// What of tables is shown beside a difference: their lengths, and their first items.
fn excerpt(tables: &Tables) -> ([usize; 4], Tables) {
    let mut first = tables.clone();
    first.pool.truncate(MOST_SHOWN);
    first.coordinates.truncate(MOST_SHOWN);
    first.submeshes.truncate(MOST_SHOWN);
    first.points.truncate(MOST_SHOWN);
    (tables.lengths(), first)
}
