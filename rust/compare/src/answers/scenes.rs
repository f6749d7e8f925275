//! Whole scene calls.

use hoodsorrel::Given;

use crate::answers::line::{bits, bounded, lent, made, List, MOST_DRAWN};
use crate::answers::{lists, one_of};
use crate::crops::cbmp;
use crate::crops::equi;
use crate::inputs::random::Random;
use crate::lent::tables::{lengths, refused_lengths};
use crate::scene::calls::drawn;
use crate::scene::crops::{UNUSABLE, USABLE};
use crate::scene::faults::{self, choices, spoil, Draft, Fault, CROP_FAULTS, CUBE_FAULTS};
use crate::scene::model::{due, Call, Due};
use crate::scene::numbers::{
    any_given, faces, small_given, LARGE_GRIDS, MANY_CELLS, OTHER_KINDS, PADDINGS, RADII,
    THIN_GRIDS, TOO_LARGE_GRIDS,
};
use crate::scene::payloads::{dressed, payload_of};

/// Calls with several faults of kind 0, and as many of kind 1.
const FAULTS: usize = 50;
/// Payloads of each kind, read as every kind.
const RANDOM: usize = 2;
/// The longest payload that is read as every kind.
const LONG: usize = 100;

pub fn add(list: &mut List, random: &mut Random) {
    crops(list, random);
    cubes(list, random);
    mesh_lists(list, random);
    any_kinds(list, random);
    for _ in 0..FAULTS {
        let draft = faults::whole_crop(random);
        faulty(list, random, draft, &CROP_FAULTS);
        let draft = faults::whole_cube(random);
        faulty(list, random, draft, &CUBE_FAULTS);
    }
}

fn crops(list: &mut List, random: &mut Random) {
    for fields in USABLE.into_iter().chain(UNUSABLE) {
        let payload = dressed(random, &equi::payload(fields));
        let given = small_given(random);
        on_one(list, random, call(0, &payload, given));
    }
    let refused = TOO_LARGE_GRIDS.into_iter().chain(THIN_GRIDS);
    for (rings, sectors) in LARGE_GRIDS.into_iter().chain(refused) {
        let payload = equi::payload(random.pick(&USABLE));
        let given = Given {
            rings,
            sectors,
            ..any_given(random)
        };
        on_one(list, random, call(0, &payload, given));
    }
    let payload = equi::payload([1, 2, 3, 4]);
    let given = small_given(random);
    on_every(list, random, call(0, &payload, given));
}

fn cubes(list: &mut List, random: &mut Random) {
    for padding in PADDINGS {
        let payload = dressed(random, &cbmp::payload(0, padding));
        for face_width in faces(padding).into_iter().skip(random.below(2)).step_by(2) {
            let given = Given {
                face_width,
                ..small_given(random)
            };
            on_one(list, random, call(1, &payload, given));
        }
    }
    let payload = cbmp::payload(0, 7);
    for cells in MANY_CELLS {
        let given = small_given(random);
        on_one(list, random, call(1, &payload, Given { cells, ..given }));
    }
    for radius in RADII {
        let given = small_given(random);
        on_one(list, random, call(1, &payload, Given { radius, ..given }));
    }
    let given = small_given(random);
    on_every(list, random, call(1, &payload, given));
}

fn mesh_lists(list: &mut List, random: &mut Random) {
    let mut payloads = [
        lists::wholes(random),
        lists::large(random),
        lists::thirds(random),
    ]
    .concat();
    let faulty = [
        lists::faults_of_m1(),
        lists::longs(),
        lists::damages(random),
    ]
    .concat();
    payloads.extend(faulty.into_iter().step_by(lists::STEP));
    for payload in payloads {
        let given = any_given(random);
        on_one(list, random, call(2, &payload, given));
    }
}

/// Payloads of each kind and of none, with every kind and with some number of none.
fn any_kinds(list: &mut List, random: &mut Random) {
    for of in 0..4 {
        for _ in 0..RANDOM {
            let mut payload = payload_of(random, of);
            payload.truncate(LONG);
            let given = small_given(random);
            let (other, another) = (random.pick(&OTHER_KINDS), random.pick(&OTHER_KINDS));
            for kind in [0, 1, 2, other, another] {
                on_one(list, random, call(kind, &payload, given));
            }
        }
    }
}

/// A call with some of the faults. One that is too long is left out.
fn faulty(list: &mut List, random: &mut Random, mut draft: Draft, faults: &[Fault]) {
    let choices: Vec<u32> = choices(faults.len()).collect();
    let choice = random.pick(&choices);
    spoil(&mut draft, random, faults, choice);
    if draft.too_long {
        return;
    }
    let call = call(draft.kind, &draft.bytes, draft.given);
    let due = due(call);
    let n = faults::lent(random, &due, draft.short_buffers);
    on(list, call, &due, n);
}

fn call(kind: u32, payload: &[u8], given: Given) -> Call<'_> {
    Call {
        kind,
        payload,
        given,
    }
}

fn every_lent(random: &mut Random, due: &Due) -> Vec<[usize; 3]> {
    match due {
        Ok(scene) => lengths(random, scene.lengths()),
        Err(_) => refused_lengths(random),
    }
}

fn on_every(list: &mut List, random: &mut Random, call: Call) {
    let due = due(call);
    for n in every_lent(random, &due) {
        on(list, call, &due, n);
    }
}

fn on_one(list: &mut List, random: &mut Random, call: Call) {
    let due = due(call);
    let lent = every_lent(random, &due);
    on(list, call, &due, one_of(random, &lent));
}

fn on(list: &mut List, call: Call, due: &Due, n: [usize; 3]) {
    let n = bounded(n, MOST_DRAWN);
    let (answer, scene) = drawn(due, n);
    let floats = match scene {
        None => Vec::new(),
        Some(scene) if call.kind == 2 => scene.floats.clone(),
        Some(scene) => made(&scene.floats),
    };
    let numbers = lent(n[0], scene.map_or(&[], |scene| &scene.numbers));
    let floats = lent(n[1], &floats);
    let records = lent(n[2], scene.map_or(&[], |scene| &scene.records));
    let buffers = [&numbers as _, &floats as _, &records as _];
    list.buffers("scene", &args(call, n), call.payload, &answer, &buffers);
}

fn args(call: Call, [numbers, floats, records]: [usize; 3]) -> [u64; 9] {
    let Given {
        rings,
        sectors,
        cells,
        radius,
        face_width,
    } = call.given;
    let given = [call.kind, rings, sectors, cells, bits(radius), face_width];
    let [kind, rings, sectors, cells, radius, face_width] = given.map(u64::from);
    let [numbers, floats, records] = [numbers, floats, records].map(|n| n as u64);
    [
        kind, rings, sectors, cells, radius, face_width, numbers, floats, records,
    ]
}
