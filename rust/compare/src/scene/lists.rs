//! Scene calls of kind 2.

use spell::Spelled;

use crate::inputs::random::Random;
use crate::mesh::damage::{damaged, every_byte, every_size, every_stray_of, stray_of};
use crate::mesh::longs::every_long;
use crate::mesh::payloads::{lone, m1, mesh, sized, List};
use crate::mesh::thirds::{every_number, every_third, SKIPPED};
use crate::mesh::words::{every_list, NOT_FINITE};
use crate::options::Options;
use crate::scene::calls::Calls;
use crate::scene::model::{due, Call};
use crate::scene::numbers::any_given;
use crate::tally::Tally;

/// So many lists are damaged in every place.
const LISTS: usize = 24;
/// So many meshes are the third of a list.
const THIRDS: usize = 4;
/// So many lists are taken with some damaged copies.
const RANDOM: usize = 10_000;
/// So many lists are spelled with every choice of sizes.
const SPELLINGS: usize = 2000;
/// Damaged copies of a random list.
const COPIES: usize = 2;

pub fn run(options: &Options, times: usize) -> Tally {
    let what = "against mesh::parse_meshes; by the model refusals, coordinate numbers, bad words, third meshes and \
                long sizes, which are also held against short ones";
    let mut calls = Calls::new(options, "scene kind 2", what);
    for payload in [Vec::new(), vec![0xFF; 7], lone(&m1())] {
        every(&mut calls, &payload);
    }
    for _ in 0..LISTS * times {
        every_damage(&mut calls);
    }
    for _ in 0..THIRDS * times {
        thirds(&mut calls);
    }
    every_long(&m1(), |payload, _| some(&mut calls, payload));
    for _ in 0..SPELLINGS * times {
        spellings(&mut calls);
    }
    for _ in 0..RANDOM * times {
        random_damage(&mut calls);
    }
    large(&mut calls);
    calls.tally
}

/// Kind 2 looks at none of the numbers.
fn call<'a>(random: &mut Random, payload: &'a [u8]) -> Call<'a> {
    Call {
        kind: 2,
        payload,
        given: any_given(random),
    }
}

fn every(calls: &mut Calls, payload: &[u8]) {
    let call = call(&mut calls.random, payload);
    calls.every(call);
}

fn some(calls: &mut Calls, payload: &[u8]) {
    let call = call(&mut calls.random, payload);
    calls.some(call);
}

fn every_damage(calls: &mut Calls) {
    let list = List::random(&mut calls.random);
    every_damage_of(calls, &list);
    let list = List::crowded(&mut calls.random);
    every_damage_of(calls, &list);
    let (mesh, bad) = (mesh(&mut calls.random), calls.random.pick(&NOT_FINITE));
    every_list(&mesh, bad, |payload, _| some(calls, payload));
}

fn every_damage_of(calls: &mut Calls, list: &List) {
    let spelled = list.spelled();
    every(calls, &spelled.bytes);
    every_byte(&spelled, |payload| some(calls, payload));
    every_size(list, |payload| some(calls, payload));
    every_stray_of(list, |payload| some(calls, payload));
}

fn thirds(calls: &mut Calls) {
    let (mesh, bad) = (mesh(&mut calls.random), calls.random.pick(&NOT_FINITE));
    every_third(&mesh, bad, |payload, _| some(calls, payload));
    every_number(&mesh, &SKIPPED, |payload, _| some(calls, payload));
}

/// The first spelling has short sizes. What is due to it is due to all.
fn spellings(calls: &mut Calls) {
    let list = List::random(&mut calls.random);
    let mut due_of_first = None;
    for payload in list.every_spelling() {
        let call = call(&mut calls.random, &payload);
        let due = due_of_first.get_or_insert_with(|| due(call));
        calls.some_due(call, due);
    }
}

fn random_damage(calls: &mut Calls) {
    let list = List::random(&mut calls.random);
    let spelled = list.spelled();
    some(calls, &spelled.bytes);
    for _ in 0..COPIES {
        let payload = damaged(&mut calls.random, &spelled);
        some(calls, &payload);
    }
    let payload = stray_of(&mut calls.random, &list);
    some(calls, &payload);
    let crowded = List::crowded(&mut calls.random).spelled();
    let payload = damaged(&mut calls.random, &crowded);
    some(calls, &payload);
}

/// A mesh of the largest counts, whole and damaged.
fn large(calls: &mut Calls) {
    let mesh = sized(&mut calls.random, 10_000, 32_000, &[128_000, 1, 3]);
    let spelled = Spelled {
        bytes: lone(&mesh),
        ..Spelled::default()
    };
    some(calls, &spelled.bytes);
    for _ in 0..COPIES {
        let payload = damaged(&mut calls.random, &spelled);
        some(calls, &payload);
    }
}
