//! The reader of one mesh.

use spell::{Mesh, Spelled, Tables};

use crate::answers::line::{bounded, lent, List, MOST_TABLES};
use crate::answers::{one_of, thinned};
use crate::inputs::random::Random;
use crate::lent::tables::{lengths, refused_lengths};
use crate::mesh::body::{agrees, measured, parsed, Due};
use crate::mesh::damage::{damaged, every_bit, every_count, every_stray, stray};
use crate::mesh::model::parse_mesh;
use crate::mesh::payloads::{self, m1, sized};
use crate::mesh::words::{every_body, NOT_FINITE};

/// Random bodies that are taken as they are.
const WHOLE: usize = 6;
/// Other ones, and damaged copies of each.
const RANDOM: usize = 12;
const COPIES: usize = 2;
/// The longest random body.
const LONG: usize = 120;
/// Pool words, vertices and points. Some fill the buffers, some need longer ones.
const LARGE: [(usize, usize, &[usize]); 6] = [
    (500, 3, &[4]),
    (1, 409, &[7]),
    (1, 410, &[7]),
    (1, 1, &[2048]),
    (1, 1, &[1, 2048]),
    (1, 2, &[1; 171]),
];

pub fn add(list: &mut List, random: &mut Random) {
    for _ in 0..WHOLE {
        let mesh = small(random);
        on_every(list, random, &spell::body(&mesh).bytes);
    }
    on_every(list, random, &spell::body(&m1()).bytes);
    for (pool, vertices, points) in LARGE {
        let body = spell::body(&sized(random, pool, vertices, points)).bytes;
        let due = due(&body);
        parse(list, &body, &due, every_lent(random, &due)[0]);
    }
    for body in faults_of_m1().iter().chain(&words_of_m1()) {
        on_one(list, random, body);
    }
    for _ in 0..RANDOM {
        let mut mesh = small(random);
        let spelled = spell::body(&mesh);
        for _ in 0..COPIES {
            let body = damaged(random, &spelled);
            on_one(list, random, &body);
        }
        stray(random, &mut mesh);
        on_one(list, random, &spell::body(&mesh).bytes);
    }
}

/// The same bodies, measured.
pub fn add_measured(list: &mut List, random: &mut Random) {
    let mut measure = |body: &[u8]| {
        list.words("measure_mesh", &[], body, &measured(&due(body)));
    };
    measure(&spell::body(&m1()).bytes);
    for (pool, vertices, points) in LARGE {
        measure(&spell::body(&sized(random, pool, vertices, points)).bytes);
    }
    for body in faults_of_m1().iter().step_by(2).chain(&words_of_m1()) {
        measure(body);
    }
    for _ in 0..RANDOM {
        let mut mesh = small(random);
        let spelled = spell::body(&mesh);
        measure(&spelled.bytes);
        measure(&damaged(random, &spelled));
        stray(random, &mut mesh);
        measure(&spell::body(&mesh).bytes);
    }
}

fn small(random: &mut Random) -> Mesh {
    loop {
        let mesh = payloads::mesh(random);
        if spell::body(&mesh).bytes.len() <= LONG {
            return mesh;
        }
    }
}

fn faults_of_m1() -> Vec<Vec<u8>> {
    let mesh = m1();
    let spelled = spell::body(&mesh);
    let Spelled { bytes, .. } = &spelled;
    let mut bodies: Vec<Vec<u8>> = (0..bytes.len()).map(|n| bytes[..n].to_vec()).collect();
    bodies.extend(thinned(1, |each| every_count(&spelled, each)));
    bodies.extend(thinned(11, |each| every_bit(bytes, each)));
    bodies.extend(thinned(2, |each| {
        every_stray(&mesh, |strayed| each(&spell::body(strayed).bytes))
    }));
    bodies
}

/// The same mesh with words at the limits of what is finite, alone and beside other faults.
fn words_of_m1() -> Vec<Vec<u8>> {
    thinned(5, |each| {
        every_body(&m1(), NOT_FINITE[0], |body, _| each(body))
    })
}

/// The model's tables, where the Rust draws the same points.
fn due(body: &[u8]) -> Due {
    let model = parse_mesh(body);
    assert!(
        model.beyond_rust(body) || agrees(body, &model.reading),
        "the Rust reads {body:02x?} otherwise"
    );
    model.reading.map(Tables::from)
}

fn every_lent(random: &mut Random, due: &Due) -> Vec<[usize; 4]> {
    let lent = match due {
        Ok(tables) => lengths(random, tables.lengths()),
        Err(_) => refused_lengths(random),
    };
    lent.into_iter().map(|n| bounded(n, MOST_TABLES)).collect()
}

fn on_every(list: &mut List, random: &mut Random, body: &[u8]) {
    let due = due(body);
    for lent in every_lent(random, &due) {
        parse(list, body, &due, lent);
    }
}

fn on_one(list: &mut List, random: &mut Random, body: &[u8]) {
    let due = due(body);
    let lent = every_lent(random, &due);
    parse(list, body, &due, one_of(random, &lent));
}

fn parse(list: &mut List, body: &[u8], due: &Due, n: [usize; 4]) {
    let (answer, tables) = parsed(due, n);
    let pool = lent(n[0], tables.map_or(&[], |tables| &tables.pool));
    let coordinates = lent(n[1], tables.map_or(&[], |tables| &tables.coordinates));
    let submeshes = lent(n[2], tables.map_or(&[], |tables| &tables.submeshes));
    let points = lent(n[3], tables.map_or(&[], |tables| &tables.points));
    let args = n.map(|n| n as u64);
    list.buffers(
        "parse_mesh",
        &args,
        body,
        &answer,
        &[&pool, &coordinates, &submeshes, &points],
    );
}
