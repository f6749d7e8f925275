//! The writer of one mesh.

use spell::Tables;

use crate::answers::line::{lent, List, MOST_OUT, MOST_TABLES};
use crate::inputs::random::Random;
use crate::lent::tables::{lengths, refused_lengths};
use crate::mesh::lists::fits;
use crate::mesh::payloads::{self, m1, sized};
use crate::mesh::spoils::{every_place, SPOILS, WORD};
use crate::mesh::words::{every_word, NOT_FINITE};
use crate::mesh::writer::put;
use crate::mesh::writer_model::write_mesh;

/// Random meshes.
const RANDOM: usize = 12;
/// With a word that is not finite every so manieth spoil.
const STEP: usize = 5;
/// And of such words alone every so manieth.
const WORDS: usize = 3;
/// The most bytes of the tables of a random mesh.
const LONG: usize = 200;
/// Pool words, vertices and points. Two boxes are longer than the longest buffer.
const LARGE: [(usize, usize, &[usize]); 5] = [
    (240, 3, &[4, 1]),
    (257, 3, &[4, 1]),
    (2, 33, &[65, 7]),
    (1, 195, &[1, 2]),
    (255, 50, &[3]),
];

pub fn add(list: &mut List, random: &mut Random) {
    write(list, random, &Tables::from(&m1()));
    for _ in 0..RANDOM {
        let tables = small(random);
        write(list, random, &tables);
    }
    for (pool, vertices, points) in LARGE {
        let tables = Tables::from(&sized(random, pool, vertices, points));
        let due = write_mesh(&tables);
        write_on(list, &tables, &due, MOST_OUT);
    }
    for (_, spoil) in SPOILS {
        let mut tables = small(random);
        spoil(&mut tables, random);
        write(list, random, &tables);
    }
    for (_, spoil) in SPOILS.into_iter().step_by(STEP) {
        let mut tables = small(random);
        spoil(&mut tables, random);
        WORD.1(&mut tables, random);
        write(list, random, &tables);
    }
    every_place(&Tables::from(&m1()), |tables| write(list, random, tables));
    let mut worded = Vec::new();
    every_word(&m1(), &NOT_FINITE, |mesh| worded.push(Tables::from(mesh)));
    for tables in worded.iter().step_by(WORDS) {
        let due = write_mesh(tables);
        // No bytes are too few as well, which comes after the word.
        for n in [0, MOST_OUT] {
            write_on(list, tables, &due, n);
        }
    }
}

fn small(random: &mut Random) -> Tables {
    loop {
        let tables = Tables::from(&payloads::mesh(random));
        if bytes(&tables).len() <= LONG {
            return tables;
        }
    }
}

/// Lends buffers of several lengths for a mesh, and of one for what is none.
fn write(list: &mut List, random: &mut Random, tables: &Tables) {
    if !fits(tables.lengths(), MOST_TABLES) {
        return;
    }
    let due = write_mesh(tables);
    let lent = match &due {
        Ok(written) => lengths(random, [written.len()]),
        Err(_) => refused_lengths(random).split_off(random.below(2)),
    };
    for [n] in lent {
        write_on(list, tables, &due, n.min(MOST_OUT));
    }
}

fn write_on(list: &mut List, tables: &Tables, due: &Result<Vec<u8>, i64>, n: usize) {
    let (answer, written) = put(due, n);
    let [pool, coordinates, submeshes, points] = tables.lengths().map(|n| n as u64);
    let args = [pool, coordinates, submeshes, points, n as u64];
    let after = lent(n, written);
    list.buffers("write_mesh", &args, &bytes(tables), &answer, &[&after]);
}

/// The four tables one after the other.
fn bytes(tables: &Tables) -> Vec<u8> {
    let words = |words: &[u32]| words.iter().flat_map(|x| x.to_be_bytes()).collect();
    let numbers = |numbers: &[u16]| numbers.iter().flat_map(|x| x.to_be_bytes()).collect();
    let parts: [Vec<u8>; 4] = [
        words(&tables.pool),
        numbers(&tables.coordinates),
        words(&tables.submeshes),
        numbers(&tables.points),
    ];
    parts.concat()
}
