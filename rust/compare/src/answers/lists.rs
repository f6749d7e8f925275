//! The calls on mesh lists.

use spell::{long_header, overwrite, Part, Size, MESH};

use crate::answers::line::{bounded, lent, List, MOST_DRAWN};
use crate::answers::{one_of, thinned};
use crate::inputs::random::Random;
use crate::lent::tables::{lengths, refused_lengths};
use crate::mesh::damage::{damaged, every_bit, every_count, every_size, every_stray_of, stray_of};
use crate::mesh::lists::{due, measured, parsed, recorded, Due};
use crate::mesh::payloads::{self, lone, lone_of, m1, sized};
use crate::mesh::plans::{every_cut_plan_of, every_plan_of, planned_list, Planned, CUT, PLANNED};
use crate::mesh::thirds::every_number;
use crate::mesh::words::{every_list, NOT_FINITE};

/// Random lists, and damaged copies of each.
const RANDOM: usize = 12;
const COPIES: usize = 2;
/// The longest random list, and the longest list by a plan.
const LONG: usize = 150;
const LONG_PLANNED: usize = 220;
/// Calls that do not take all lists with a fault take every so manieth: plans go by tens, and long sizes by twelves.
pub const STEP: usize = 7;
/// Of the faults of a mesh with a long size every so manieth is taken.
const LONG_STEP: usize = 13;
/// Skipped boxes around each of up to five meshes.
const SKIPPED: [usize; 2] = [0, 2];
/// Pool words, vertices and points. Some fill the buffers, some need longer ones.
const LARGE: [(usize, usize, &[usize]); 8] = [
    (257, 3, &[4, 1]),
    (2, 400, &[500, 1]),
    (1, 819, &[819]),
    (1, 820, &[2]),
    (3, 3, &[820]),
    (1, 1, &[8000]),
    (1, 1, &[1; 102]),
    (1, 1, &[1; 103]),
];

pub fn add(list: &mut List, random: &mut Random) {
    for payload in wholes(random) {
        let due = due(&payload);
        for lent in every_lent(random, &due) {
            parse(list, &payload, &due, lent);
            records(list, &payload, &due, lent[2]);
        }
        measure(list, &payload, &due);
    }
    for payload in large(random) {
        let due = due(&payload);
        let exact = every_lent(random, &due)[0];
        parse(list, &payload, &due, exact);
        records(list, &payload, &due, exact[2]);
        measure(list, &payload, &due);
    }
    for payload in thirds(random) {
        let due = due(&payload);
        let lent = every_lent(random, &due);
        parse(list, &payload, &due, one_of(random, &lent));
        records(list, &payload, &due, one_of(random, &lent)[2]);
        measure(list, &payload, &due);
    }
    for payload in [faults_of_m1(), longs(), damages(random)].concat() {
        let due = due(&payload);
        let lent = every_lent(random, &due);
        parse(list, &payload, &due, one_of(random, &lent));
        match random.below(2) {
            0 => records(list, &payload, &due, one_of(random, &lent)[2]),
            _ => measure(list, &payload, &due),
        }
    }
}

/// Small lists without a fault.
pub fn wholes(random: &mut Random) -> Vec<Vec<u8>> {
    let mut payloads = vec![Vec::new(), vec![0xFF; 7], lone(&m1())];
    payloads.push([lone(&m1()), lone(&m1())].concat());
    payloads.push([lone_of(&m1(), Size::Long), lone(&m1())].concat());
    payloads.extend((0..4).map(|_| small(random).spelled().bytes));
    payloads
}

/// Lists of one mesh with large counts.
pub fn large(random: &mut Random) -> Vec<Vec<u8>> {
    let mesh = |(pool, vertices, points)| lone(&sized(random, pool, vertices, points));
    LARGE.map(mesh).into()
}

/// Document 01's m1, and some of the same with a long size: cut, with other counts and sizes, with bits turned over,
/// with numbers that leave their range, and with words at the limits of what is finite.
pub fn faults_of_m1() -> Vec<Vec<u8>> {
    let long = faults_of(Size::Long).into_iter().step_by(LONG_STEP);
    faults_of(Size::Short).into_iter().chain(long).collect()
}

fn faults_of(size: Size) -> Vec<Vec<u8>> {
    let list = payloads::List::of(vec![Part::Mesh(m1())], size);
    let spelled = list.spelled();
    let bytes = &spelled.bytes;
    let mut payloads: Vec<Vec<u8>> = (1..bytes.len()).map(|n| bytes[..n].to_vec()).collect();
    payloads.extend(thinned(1, |each| every_count(&spelled, each)));
    payloads.extend(thinned(11, |each| every_bit(bytes, each)));
    payloads.extend(thinned(4, |each| every_size(&list, each)));
    payloads.extend(thinned(2, |each| every_stray_of(&list, each)));
    payloads.extend(thinned(20, |each| {
        every_list(&m1(), NOT_FINITE[0], |payload, _| each(payload))
    }));
    payloads
}

/// Damaged copies of random lists, and lists of two boxes by every plan.
pub fn damages(random: &mut Random) -> Vec<Vec<u8>> {
    let mut payloads = Vec::new();
    for _ in 0..RANDOM {
        let list = small(random);
        let spelled = list.spelled();
        payloads.extend((0..COPIES).map(|_| damaged(random, &spelled)));
        payloads.push(stray_of(random, &list));
        payloads.push(spelled.bytes);
    }
    let plans = every_plan_of(2).chain(every_cut_plan_of(1));
    payloads.extend(plans.map(|plan| small_planned(random, &plan)));
    payloads
}

/// Lists around a third mesh: every box in its place, behind it and before it, with and without boxes that are skipped;
/// its size at its limits; and up to five meshes among skipped boxes.
pub fn thirds(random: &mut Random) -> Vec<Vec<u8>> {
    let (mesh, skipped) = (Planned::Mesh(None), Planned::Skipped(None));
    let mut payloads = Vec::new();
    for planned in PLANNED {
        for plan in [
            &[mesh, mesh, planned][..],
            &[skipped, mesh, skipped, mesh, skipped, planned],
            &[mesh, mesh, mesh, planned],
            &[mesh, planned, mesh, mesh],
        ] {
            payloads.push(small_planned(random, plan));
        }
    }
    for cut in CUT {
        for plan in [
            &[cut][..],
            &[mesh, cut],
            &[mesh, mesh, cut],
            &[skipped, mesh, skipped, mesh, skipped, cut],
        ] {
            payloads.push(small_planned(random, plan));
        }
    }
    payloads.extend(sizes_of_third());
    every_number(&m1(), &SKIPPED, |payload, _| {
        payloads.push(payload.to_vec())
    });
    payloads
}

/// The last of three times m1 with sizes below, at and above their limits.
fn sizes_of_third() -> Vec<Vec<u8>> {
    let three = lone(&m1()).repeat(3);
    let size = (three.len() / 3) as u32;
    let sizes = [0, 1, 7, 8, 9, size, size + 1, u32::MAX];
    let with_size = |other| {
        let mut three = three.clone();
        overwrite(&mut three, 8 * 2 * size as usize, other);
        three
    };
    sizes.map(with_size).into()
}

/// Long sizes: of a mesh in each place and of a box that is skipped, each with sizes at the limits and with cuts of the
/// header.
pub fn longs() -> Vec<Vec<u8>> {
    let body = spell::body(&m1()).bytes;
    let right = (Size::Long.header() + body.len()) as u64;
    let mut payloads = Vec::new();
    for (meshes, box_type) in [(0, MESH), (1, MESH), (2, MESH), (0, *b"free")] {
        let before = lone(&m1()).repeat(meshes);
        let list = |size| [&before[..], &long_header(box_type, size), &body].concat();
        let near = [0, 15, 16, right - 1, right, right + 1];
        let far = [(1 << 32) + right, 1 << 63, u64::MAX];
        payloads.extend(near.into_iter().chain(far).map(list));
        payloads.extend([8, 15, 16].map(|n| list(16)[..before.len() + n].to_vec()));
    }
    payloads
}

fn small(random: &mut Random) -> payloads::List {
    loop {
        let list = payloads::List::random(random);
        if list.spelled().bytes.len() <= LONG {
            return list;
        }
    }
}

fn small_planned(random: &mut Random, plan: &[Planned]) -> Vec<u8> {
    loop {
        let payload = planned_list(random, plan);
        if payload.len() <= LONG_PLANNED {
            return payload;
        }
    }
}

fn every_lent(random: &mut Random, due: &Due) -> Vec<[usize; 3]> {
    let lent = match due {
        Ok(drawing) => lengths(random, drawing.lengths()),
        Err(_) => refused_lengths(random),
    };
    lent.into_iter().map(|n| bounded(n, MOST_DRAWN)).collect()
}

fn parse(list: &mut List, payload: &[u8], due: &Due, n: [usize; 3]) {
    let (answer, drawn) = parsed(due, n);
    let numbers = lent(n[0], drawn.map_or(&[], |drawing| &drawing.numbers));
    let floats = lent(n[1], drawn.map_or(&[], |drawing| &drawing.floats));
    let records = lent(n[2], drawn.map_or(&[], |drawing| &drawing.records));
    let args = n.map(|n| n as u64);
    list.buffers(
        "parse_meshes",
        &args,
        payload,
        &answer,
        &[&numbers, &floats, &records],
    );
}

fn records(list: &mut List, payload: &[u8], due: &Due, n: usize) {
    let (answer, records) = recorded(due, n);
    let after = lent(n, records);
    list.buffers("mesh_records", &[n as u64], payload, &answer, &[&after]);
}

fn measure(list: &mut List, payload: &[u8], due: &Due) {
    list.words("measure_meshes", &[], payload, &measured(due));
}
