//! Lists of boxes by plan: which of them are meshes, and what is wrong with each. So it is known without a look at the
//! bytes what a list is refused with.

use std::iter;

use spell::{body, long_header, overwrite, read_word, Mesh, Part, Size, Spelled, MESH};

use crate::inputs::payloads::LONGEST;
use crate::inputs::random::Random;
use crate::mesh::damage::bad_counts;
use crate::mesh::longs::bad_sizes;
use crate::mesh::payloads::{any_size, lone, longest_of, m1, mesh, skipped, List};
use crate::mesh::words::{m1_and_infinite, spoil_word};
use crate::refusals::{BAD_COUNT, BAD_SIZE, BAD_WORD, SHORT, STRAY, THIRD_MESH, TOO_LONG};

/// A box, and the refusal that its fault asks for, if it has one.
#[derive(Clone, Copy)]
pub enum Planned {
    Mesh(Option<i64>),
    Skipped(Option<i64>),
    /// The fault is in the long size.
    LongMesh(i64),
    LongSkipped(i64),
}

/// A mesh without a fault and with each that it can have, and a box that is skipped, of which only the size is judged.
/// Those whose long size is not at fault have a short size or a long one.
pub const PLANNED: [Planned; 10] = [
    Planned::Mesh(None),
    Planned::Mesh(Some(SHORT)),
    Planned::Mesh(Some(BAD_SIZE)),
    Planned::Mesh(Some(BAD_COUNT)),
    Planned::Mesh(Some(STRAY)),
    Planned::Mesh(Some(BAD_WORD)),
    Planned::Skipped(None),
    Planned::Skipped(Some(BAD_SIZE)),
    Planned::LongMesh(BAD_SIZE),
    Planned::LongSkipped(BAD_SIZE),
];

/// A box that is cut in its long size. Nothing can stand behind it.
pub const CUT: [Planned; 2] = [Planned::LongMesh(SHORT), Planned::LongSkipped(SHORT)];

/// The boxes of the longest plans: three meshes, and one before, between or behind them.
const MOST: u32 = 4;
/// The first mesh that is one too many.
const THIRD: usize = 3;

/// Every plan of up to four boxes, of which the last may be cut.
pub fn every_plan() -> impl Iterator<Item = Vec<Planned>> {
    let cut = (0..MOST).flat_map(every_cut_plan_of);
    (0..=MOST).flat_map(every_plan_of).chain(cut)
}

/// Every plan of so many boxes and a cut one behind them.
pub fn every_cut_plan_of(boxes: u32) -> impl Iterator<Item = Vec<Planned>> {
    every_plan_of(boxes).flat_map(|plan| CUT.map(|cut| [&plan[..], &[cut]].concat()))
}

/// Every plan of so many boxes.
pub fn every_plan_of(boxes: u32) -> impl Iterator<Item = Vec<Planned>> {
    (0..PLANNED.len().pow(boxes)).map(move |number| plan(number, boxes))
}

/// The plan of so many boxes that a number names by its digits.
fn plan(number: usize, boxes: u32) -> Vec<Planned> {
    let digit = |place| number / PLANNED.len().pow(place) % PLANNED.len();
    (0..boxes).map(|place| PLANNED[digit(place)]).collect()
}

/// What a list is refused with, if it is: the fault that is met first. A third mesh is one by its type, which comes
/// behind its size and before its long size and its body.
pub fn first_fault(plan: &[Planned]) -> Option<i64> {
    let mut meshes = 0;
    plan.iter().find_map(|planned| {
        meshes += usize::from(matches!(planned, Planned::Mesh(_) | Planned::LongMesh(_)));
        match planned {
            Planned::Mesh(Some(BAD_SIZE)) => Some(BAD_SIZE),
            Planned::Mesh(_) | Planned::LongMesh(_) if meshes == THIRD => Some(THIRD_MESH),
            Planned::Mesh(fault) | Planned::Skipped(fault) => *fault,
            Planned::LongMesh(fault) | Planned::LongSkipped(fault) => Some(*fault),
        }
    })
}

/// A list by a plan.
pub fn planned_list(random: &mut Random, plan: &[Planned]) -> Vec<u8> {
    let (boxes, rest) = match plan.split_last() {
        Some((Planned::LongMesh(SHORT), boxes)) => (boxes, cut_header(random, MESH)),
        Some((Planned::LongSkipped(SHORT), boxes)) => (boxes, cut_header(random, *b"free")),
        _ => {
            let n = random.below(8);
            (plan, random.bytes(n))
        }
    };
    let list = List {
        parts: boxes.iter().map(|planned| part(random, *planned)).collect(),
        sizes: boxes.iter().map(|planned| size(random, *planned)).collect(),
        rest,
    };
    let Spelled {
        mut bytes, sizes, ..
    } = list.spelled();
    for (place, planned) in iter::zip(sizes, boxes) {
        spoil_size(random, &mut bytes, place / 8, *planned);
    }
    bytes
}

/// A header that ends in its long size.
fn cut_header(random: &mut Random, box_type: [u8; 4]) -> Vec<u8> {
    let n = Size::Short.header() + random.below(8);
    let long = random.pick(&[0, 15, 16, 100, u64::MAX]);
    long_header(box_type, long)[..n].to_vec()
}

/// Puts a bad size over that of a box, where its plan says so. 1 is none: it is for a long size.
fn spoil_size(random: &mut Random, bytes: &mut [u8], at: usize, planned: Planned) {
    let left = bytes.len() - at;
    match planned {
        Planned::Mesh(Some(BAD_SIZE)) | Planned::Skipped(Some(BAD_SIZE)) => {
            let below = 2 + random.below(6) as u32;
            let size = random.pick(&[below, 0, 7, left as u32 + 1, 0x8000_0008, u32::MAX]);
            overwrite(bytes, 8 * at, size);
        }
        Planned::LongMesh(_) | Planned::LongSkipped(_) => {
            let low = 8 * (at + 12);
            let right = read_word(bytes, low) as usize;
            let size = random.pick(&bad_sizes(at, right, left));
            overwrite(bytes, low, size as u32);
            overwrite(bytes, low - 32, (size >> 32) as u32);
        }
        _ => {}
    }
}

/// Lists as long as a payload may be, each with its refusal, if it has one, and with one byte more, which comes before
/// any fault.
pub fn every_longest(mut each: impl FnMut(&[u8], Option<i64>)) {
    let [whole, infinite] = m1_and_infinite();
    let mut strayed = m1();
    strayed.submeshes[0].points.push(3);
    let two = lone(&whole).repeat(2);
    for (before, mesh, size, refusal) in [
        (&[][..], &whole, Size::Short, None),
        (&[], &whole, Size::Long, None),
        (&[], &infinite, Size::Short, Some(BAD_WORD)),
        (&[], &strayed, Size::Long, Some(STRAY)),
        (&two, &whole, Size::Short, Some(THIRD_MESH)),
        (&two, &infinite, Size::Long, Some(THIRD_MESH)),
    ] {
        for mut payload in longest_of(before, mesh, size) {
            each(&payload, refusal);
            payload.push(0);
            each(&payload, Some(TOO_LONG));
        }
    }
    every_long_size_of_longest(each);
}

/// A list as long as a payload may be that is one box, and the same with one byte more: its long size one too large,
/// and in 32 bits right.
fn every_long_size_of_longest(mut each: impl FnMut(&[u8], Option<i64>)) {
    let mut payload = vec![0; LONGEST];
    for size in [LONGEST as u64 + 1, (1 << 32) + LONGEST as u64] {
        payload[..16].copy_from_slice(&long_header(*b"free", size));
        each(&payload, Some(BAD_SIZE));
        payload.push(0);
        each(&payload, Some(TOO_LONG));
        payload.pop();
    }
}

/// The size that a box has.
fn size(random: &mut Random, planned: Planned) -> Size {
    match planned {
        Planned::LongMesh(_) | Planned::LongSkipped(_) => Size::Long,
        _ => any_size(random),
    }
}

/// A box with its fault, but for one in its size.
fn part(random: &mut Random, planned: Planned) -> Part {
    let fault = match planned {
        Planned::Mesh(fault) => fault,
        Planned::LongMesh(_) => None,
        Planned::Skipped(_) | Planned::LongSkipped(_) => return skipped(random),
    };
    let mut mesh = mesh(random);
    match fault {
        Some(SHORT) => {
            mesh.rest.clear();
            let mut bytes = body(&mesh).bytes;
            bytes.truncate(random.below(bytes.len()));
            Part::Other(MESH, bytes)
        }
        Some(BAD_COUNT) => Part::Other(MESH, miscounted(random, &mesh)),
        Some(STRAY) => {
            stray(random, &mut mesh);
            Part::Mesh(mesh)
        }
        Some(BAD_WORD) => {
            spoil_word(random, &mut mesh.pool);
            Part::Mesh(mesh)
        }
        _ => Part::Mesh(mesh),
    }
}

/// The body with one count that is 0 or above its limit.
fn miscounted(random: &mut Random, mesh: &Mesh) -> Vec<u8> {
    let Spelled {
        mut bytes, counts, ..
    } = body(mesh);
    let number = random.below(counts.len());
    let count = random.pick(bad_counts(number));
    overwrite(&mut bytes, counts[number], count);
    bytes
}

/// One running number is -1, which every width can say.
fn stray(random: &mut Random, mesh: &mut Mesh) {
    let submesh = random.below(mesh.submeshes.len());
    let numbers = match random.below(2) {
        0 => &mut mesh.coordinates,
        _ => &mut mesh.submeshes[submesh].points,
    };
    let place = random.below(numbers.len());
    numbers[place] = -1;
}
