//! The points of each texture of a mesh list, against a model of document 02 over the records of the Rust's drawing.

use spell::{Mesh, Part, Size, Submesh};

use crate::inputs::payloads::shown;
use crate::inputs::random::Random;
use crate::lent::answer::Answer;
use crate::lent::fill::{before, check_exactly, lengths};
use crate::mesh::damage::{damaged, stray_of};
use crate::mesh::lists::{due as drawing_of, LONGER};
use crate::mesh::longs::every_long;
use crate::mesh::payloads::{self, large_counts, lone, sized, List};
use crate::mesh::plans::{every_longest, every_plan, planned_list};
use crate::mesh::thirds::{every_number, every_third, SKIPPED};
use crate::mesh::words::{every_list, NOT_FINITE};
use crate::options::Options;
use crate::tally::Tally;

const NAME: &str = "textures";
/// So many meshes with words at the limits of what is finite.
const WORDS: usize = 40;
/// So many meshes are the third of a list, and so many lists are made by each plan.
const THIRDS: usize = 4;
const RANDOM: usize = 24_000;
/// So many lists are spelled with every choice of sizes.
const SPELLINGS: usize = 4000;
/// Words of a record: its texture is the second, its points are the last.
const RECORD: usize = 5;

pub type Due = Result<Vec<u32>, i64>;

pub fn run(options: &Options) -> Vec<Tally> {
    let times = if options.long { LONGER } else { 1 };
    let random = &mut Random::new(options.seed, NAME);
    vec![
        made(options, random),
        faults(options, random, times),
        lists(options, random, times),
        spellings(options, random, times),
    ]
}

/// Each texture with its points, in order of first appearance.
pub fn model(records: &[u32]) -> Vec<u32> {
    let mut textures: Vec<(u32, u32)> = Vec::new();
    for record in records.chunks_exact(RECORD) {
        let (texture, points) = (record[1], record[4]);
        match textures.iter_mut().find(|(known, _)| *known == texture) {
            Some((_, sum)) => *sum += points,
            None => textures.push((texture, points)),
        }
    }
    textures.into_iter().flat_map(<[u32; 2]>::from).collect()
}

pub fn due(payload: &[u8]) -> Due {
    drawing_of(payload).map(|drawing| model(&drawing.records))
}

/// The answer with a buffer of so many words, and what it begins with afterwards.
pub fn answer(due: &Due, lent: usize) -> (Answer, &[u32]) {
    match due {
        Err(refusal) => (Answer::refused(*refusal), &[]),
        Ok(words) if words.len() > lent => (Answer::needs(words.len()), &[]),
        Ok(words) => (Answer::place(words.len() / 2), words),
    }
}

fn check(tally: &mut Tally, payload: &[u8]) {
    check_due(tally, payload, &due(payload));
}

fn check_due(tally: &mut Tally, payload: &[u8], due: &Due) {
    for lent in lengths(due.as_ref().map_or(9, Vec::len)) {
        let (answer, words) = answer(due, lent);
        let mut after = before(lent);
        after[..words.len()].copy_from_slice(words);
        check_exactly(
            tally,
            &answer,
            &after,
            |out, stored| hoodsorrel::raw::texture_points(payload, out, stored),
            || (lent, shown(payload)),
        );
    }
}

/// A mesh with a submesh for each texture, of 1 to 7 points by its texture.
fn textured(random: &mut Random, textures: &[u8]) -> Mesh {
    let mut mesh = sized(random, 2, 3, &[]);
    mesh.submeshes = textures
        .iter()
        .map(|&texture| Submesh {
            texture,
            mode: 0,
            points: vec![0; 1 + usize::from(texture) % 7],
        })
        .collect();
    mesh
}

/// The textures of a list's meshes taken from few, so that most occur again.
pub fn few_textures(random: &mut Random, list: &mut List) {
    let few = [0, 255, random.word() as u8, random.word() as u8];
    let few = &few[..1 + random.below(few.len())];
    for part in &mut list.parts {
        if let Part::Mesh(mesh) = part {
            for submesh in &mut mesh.submeshes {
                submesh.texture = random.pick(few);
            }
        }
    }
}

/// All textures, upward and downward, once, twice, and over two meshes.
pub fn all_textures(random: &mut Random) -> Vec<Vec<u8>> {
    let up: Vec<u8> = (0..=255).collect();
    let down: Vec<u8> = (0..=255).rev().collect();
    let twice = [up.clone(), down.clone()].concat();
    let mut payloads: Vec<Vec<u8>> = [&up, &down, &twice, &up[1..].to_vec(), &down[1..].to_vec()]
        .map(|textures| lone(&textured(random, textures)))
        .to_vec();
    let meshes = [&down, &up].map(|textures| textured(random, textures));
    let parts = meshes.map(Part::Mesh).to_vec();
    payloads.push(List::of(parts, Size::Short).spelled().bytes);
    payloads
}

fn made(options: &Options, random: &mut Random) -> Tally {
    let what = "every texture in one list, no list, large counts, and the longest lists with one byte more";
    let mut tally = Tally::new(options, NAME, what);
    check(&mut tally, &[]);
    for payload in all_textures(random) {
        check(&mut tally, &payload);
    }
    for (pool, vertices, points) in large_counts() {
        check(&mut tally, &lone(&sized(random, pool, vertices, &points)));
    }
    // Two submeshes of as many points as one may have, of one texture, and one of another between them.
    let mut mesh = sized(random, 100, 1000, &[128_000, 1, 128_000]);
    for (submesh, texture) in mesh.submeshes.iter_mut().zip([9, 8, 9]) {
        submesh.texture = texture;
    }
    check(&mut tally, &lone(&mesh));
    every_longest(|payload, _| check(&mut tally, payload));
    tally
}

/// Faults in one box or in several: that of the first one counts.
fn faults(options: &Options, random: &mut Random, times: usize) -> Tally {
    let what =
        "lists of up to four boxes by plan, third meshes, words and long sizes at their limits";
    let mut tally = Tally::new(options, "textures faults", what);
    for _ in 0..WORDS * times {
        let (mesh, bad) = (payloads::mesh(random), random.pick(&NOT_FINITE));
        every_list(&mesh, bad, |payload, _| check(&mut tally, payload));
    }
    for _ in 0..THIRDS * times {
        let (mesh, bad) = (payloads::mesh(random), random.pick(&NOT_FINITE));
        every_third(&mesh, bad, |payload, _| check(&mut tally, payload));
        every_number(&mesh, &SKIPPED, |payload, _| check(&mut tally, payload));
        every_long(&mesh, |payload, _| check(&mut tally, payload));
        for plan in every_plan() {
            check(&mut tally, &planned_list(random, &plan));
        }
    }
    tally
}

fn lists(options: &Options, random: &mut Random, times: usize) -> Tally {
    let what = "random lists in which textures occur again, whole and damaged";
    let mut tally = Tally::new(options, "textures lists", what);
    for _ in 0..RANDOM * times {
        let mut list = List::random(random);
        few_textures(random, &mut list);
        let spelled = list.spelled();
        check(&mut tally, &spelled.bytes);
        check(&mut tally, &damaged(random, &spelled));
        check(&mut tally, &stray_of(random, &list));
        let crowded = List::crowded(random).spelled();
        check(&mut tally, &damaged(random, &crowded));
    }
    tally
}

/// The first spelling has short sizes.
fn spellings(options: &Options, random: &mut Random, times: usize) -> Tally {
    let what = "lists with any of their sizes long against what is due to the same with short ones";
    let mut tally = Tally::new(options, "textures spellings", what);
    for _ in 0..SPELLINGS * times {
        let mut list = List::random(random);
        few_textures(random, &mut list);
        let mut due_of_first = None;
        for payload in list.every_spelling() {
            let due = due_of_first.get_or_insert_with(|| due(&payload));
            check_due(&mut tally, &payload, due);
        }
    }
    tally
}
