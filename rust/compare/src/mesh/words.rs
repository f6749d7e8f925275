//! Pool words at the limits of what is finite: in every place, drawn or not, and beside every other fault of a body.

use spell::{Mesh, Part, FIELDS, MESH};

use crate::inputs::random::Random;
use crate::mesh::damage::{every_bad_count, every_cut, every_stray};
use crate::mesh::payloads::{m1, List, BOTH_SIZES};
use crate::refusals::{BAD_COUNT, BAD_WORD, SHORT, THIRD_MESH};

/// Zeros, and the least and the largest subnormal and normal words.
pub const FINITE: [u32; 10] = [
    0x0000_0000,
    0x8000_0000,
    0x0000_0001,
    0x8000_0001,
    0x007F_FFFF,
    0x807F_FFFF,
    0x0080_0000,
    0x8080_0000,
    0x7F7F_FFFF,
    0xFF7F_FFFF,
];

/// Infinities, and the NaNs with the least and the largest other bits, signalling and quiet.
pub const NOT_FINITE: [u32; 10] = [
    0x7F80_0000,
    0xFF80_0000,
    0x7F80_0001,
    0xFF80_0001,
    0x7FBF_FFFF,
    0xFFBF_FFFF,
    0x7FC0_0000,
    0xFFC0_0000,
    0x7FFF_FFFF,
    0xFFFF_FFFF,
];

/// Document 01's m1, as it is and with an infinity.
pub fn m1_and_infinite() -> [Mesh; 2] {
    [m1(), with_word(&m1(), 1, NOT_FINITE[0])]
}

/// One word of a pool, if there is any, becomes an infinity or a NaN.
pub fn spoil_word(random: &mut Random, pool: &mut [u32]) {
    if !pool.is_empty() {
        pool[random.below(pool.len())] = random.pick(&NOT_FINITE);
    }
}

/// The same in one mesh of a list, if there is any.
pub fn spoil_list(random: &mut Random, list: &mut List) {
    let pools = list.parts.iter_mut().filter_map(|part| match part {
        Part::Mesh(mesh) => Some(&mut mesh.pool),
        Part::Other(..) => None,
    });
    let mut pools: Vec<&mut Vec<u32>> = pools.collect();
    if !pools.is_empty() {
        let place = random.below(pools.len());
        spoil_word(random, pools[place]);
    }
}

/// Each of the words in each place of a mesh's pool, and as one more that no point is drawn with.
pub fn every_word(mesh: &Mesh, words: &[u32], mut each: impl FnMut(&Mesh)) {
    for &word in words {
        for place in 0..mesh.pool.len() {
            each(&with_word(mesh, place, word));
        }
        for place in 0..=mesh.pool.len() {
            undrawn(mesh, place, word).iter().for_each(&mut each);
        }
    }
}

fn with_word(mesh: &Mesh, place: usize, word: u32) -> Mesh {
    let mut mesh = mesh.clone();
    mesh.pool[place] = word;
    mesh
}

/// The mesh with a word more in its pool: one that no vertex names, and one that only a vertex names which no point
/// does.
fn undrawn(mesh: &Mesh, place: usize, word: u32) -> [Mesh; 2] {
    let mut unnamed = mesh.clone();
    unnamed.pool.insert(place, word);
    let place = place as i64;
    for number in &mut unnamed.coordinates {
        *number += i64::from(*number >= place);
    }
    let mut named = unnamed.clone();
    named.coordinates.extend([place; FIELDS]);
    [unnamed, named]
}

/// Bodies of a mesh with a word at each limit, and with a bad one beside every other fault. Each comes with its
/// refusal, if it has one: of two faults that of the first in field order.
pub fn every_body(mesh: &Mesh, bad: u32, mut each: impl FnMut(&[u8], Option<i64>)) {
    every_word(mesh, &FINITE, |mesh| each(&spell::body(mesh).bytes, None));
    every_word(mesh, &NOT_FINITE, |mesh| {
        each(&spell::body(mesh).bytes, Some(BAD_WORD))
    });
    for place in 0..mesh.pool.len() {
        let mesh = with_word(mesh, place, bad);
        every_fault(&mesh, place, |body, first| each(body, Some(first)));
    }
}

/// Every other fault beside the bad word in this place.
fn every_fault(mesh: &Mesh, place: usize, mut each: impl FnMut(&[u8], i64)) {
    let body = spell::body(mesh);
    // The count, and the words up to this one.
    let end = 4 * (place + 2);
    every_cut(&body.bytes, |cut| {
        each(cut, if cut.len() < end { SHORT } else { BAD_WORD })
    });
    every_bad_count(&body, |number, body| {
        each(body, if number == 0 { BAD_COUNT } else { BAD_WORD })
    });
    every_stray(mesh, |mesh| each(&spell::body(mesh).bytes, BAD_WORD));
}

/// The same bodies in lists, and before the meshes in a box that is skipped: as the first and as the second of two
/// meshes, and between two, of which the last is one too many where the body has no fault; with short sizes and with
/// long ones.
pub fn every_list(mesh: &Mesh, bad: u32, mut each: impl FnMut(&[u8], Option<i64>)) {
    every_body(mesh, bad, |body, refusal| {
        let boxed = |box_type| Part::Other(box_type, body.to_vec());
        let whole = || Part::Mesh(m1());
        let too_many = refusal.or(Some(THIRD_MESH));
        for (meshes, refusal) in [
            (vec![boxed(MESH), whole()], refusal),
            (vec![whole(), boxed(MESH)], refusal),
            (vec![whole(), boxed(MESH), whole()], too_many),
        ] {
            let parts = [vec![boxed(*b"free")], meshes].concat();
            for size in BOTH_SIZES {
                each(&List::of(parts.clone(), size).spelled().bytes, refusal);
            }
        }
    });
}
