//! Payloads of kind 2 that are damaged, most of them so that one rule is broken.

use spell::{overwrite, read_word, Mesh, Part, Spelled, MESH};

use crate::inputs::random::Random;
use crate::mesh::model::{MOST_COORDINATES, MOST_POINTS, MOST_VERTICES};
use crate::mesh::payloads::List;

/// Words to put over counts.
const COUNTS: [u32; 14] = [
    0,
    1,
    2,
    3,
    5,
    10_000,
    10_001,
    32_000,
    32_001,
    128_000,
    128_001,
    65_537,
    0x8000_0000,
    0xFFFF_FFFF,
];
/// Words to put over sizes.
const SIZES: [u32; 10] = [0, 1, 7, 8, 9, 15, 16, 17, 0x8000_0008, 0xFFFF_FFFF];

/// What a list and a lone body share: every cut, other counts, and every bit turned over.
pub fn every_byte(spelled: &Spelled, mut each: impl FnMut(&[u8])) {
    let bytes = &spelled.bytes;
    every_cut(bytes, &mut each);
    every_count(spelled, &mut each);
    every_bit(bytes, each);
}

pub fn every_cut(bytes: &[u8], each: impl FnMut(&[u8])) {
    (0..bytes.len()).map(|n| &bytes[..n]).for_each(each);
}

/// Each count with every other word over it.
pub fn every_count(spelled: &Spelled, mut each: impl FnMut(&[u8])) {
    let mut bytes = spelled.bytes.clone();
    for &place in &spelled.counts {
        let count = read_word(&bytes, place);
        for other in COUNTS.into_iter().chain([count - 1, count + 1]) {
            overwrite(&mut bytes, place, other);
            each(&bytes);
        }
        overwrite(&mut bytes, place, count);
    }
}

/// What a body's count must not be, by its number: 0, and one above its limit. Submeshes have no limit.
pub fn bad_counts(number: usize) -> &'static [u32] {
    match number {
        0 => &[0, MOST_COORDINATES + 1],
        1 => &[0, MOST_VERTICES + 1],
        2 => &[0],
        _ => &[0, MOST_POINTS + 1],
    }
}

/// Each count of a body out of its range, handed out with its number.
pub fn every_bad_count(body: &Spelled, mut each: impl FnMut(usize, &[u8])) {
    for (number, &place) in body.counts.iter().enumerate() {
        let mut bytes = body.bytes.clone();
        for &count in bad_counts(number) {
            overwrite(&mut bytes, place, count);
            each(number, &bytes);
        }
    }
}

/// Each bit turned over.
pub fn every_bit(bytes: &[u8], mut each: impl FnMut(&[u8])) {
    let mut bytes = bytes.to_vec();
    for bit in 0..8 * bytes.len() {
        bytes[bit / 8] ^= 1 << (bit % 8);
        each(&bytes);
        bytes[bit / 8] ^= 1 << (bit % 8);
    }
}

/// The words of all sizes: a long one has two.
fn size_words(spelled: &Spelled) -> Vec<usize> {
    let long = spelled.long_sizes.iter();
    let words = long.flat_map(|place| [*place, place + 32]);
    spelled.sizes.iter().copied().chain(words).collect()
}

/// Every box with every size up to past the end, and with the body cut anywhere.
pub fn every_size(list: &List, mut each: impl FnMut(&[u8])) {
    let spelled = list.spelled();
    let mut bytes = spelled.bytes.clone();
    for place in size_words(&spelled) {
        let size = read_word(&bytes, place);
        // The second word of a long size stands 12 bytes behind its box's start.
        let past = (bytes.len() - place / 8) as u32 + 14;
        for other in (0..=past).chain(SIZES) {
            overwrite(&mut bytes, place, other);
            each(&bytes);
        }
        overwrite(&mut bytes, place, size);
    }
    for (place, part) in list.parts.iter().enumerate() {
        let Part::Mesh(mesh) = part else { continue };
        let body = spell::body(mesh).bytes;
        let mut list = list.clone();
        for n in 0..body.len() {
            list.parts[place] = Part::Other(MESH, body[..n].to_vec());
            each(&list.spelled().bytes);
        }
    }
}

/// Each running number one below its range and one above it.
pub fn every_stray(mesh: &Mesh, mut each: impl FnMut(&Mesh)) {
    let mut strayed = mesh.clone();
    let limits = [-1, mesh.pool.len() as i64];
    for place in 0..mesh.coordinates.len() {
        for stray in limits {
            strayed.coordinates[place] = stray;
            each(&strayed);
        }
        strayed.coordinates[place] = mesh.coordinates[place];
    }
    let limits = [-1, mesh.vertices() as i64];
    for (number, submesh) in mesh.submeshes.iter().enumerate() {
        for place in 0..submesh.points.len() {
            for stray in limits {
                strayed.submeshes[number].points[place] = stray;
                each(&strayed);
            }
            strayed.submeshes[number].points[place] = submesh.points[place];
        }
    }
}

/// The same in each mesh of a list.
pub fn every_stray_of(list: &List, mut each: impl FnMut(&[u8])) {
    for (place, part) in list.parts.iter().enumerate() {
        let Part::Mesh(mesh) = part else { continue };
        let mut list = list.clone();
        every_stray(mesh, |strayed| {
            list.parts[place] = Part::Mesh(strayed.clone());
            each(&list.spelled().bytes);
        });
    }
}

/// One running number one outside its range.
pub fn stray(random: &mut Random, mesh: &mut Mesh) {
    let (pool, vertices) = (mesh.pool.len() as i64, mesh.vertices() as i64);
    if random.below(2) == 0 {
        let place = random.below(mesh.coordinates.len());
        mesh.coordinates[place] = random.pick(&[-1, pool]);
    } else {
        let submesh = random.below(mesh.submeshes.len());
        let points = &mut mesh.submeshes[submesh].points;
        let place = random.below(points.len());
        points[place] = random.pick(&[-1, vertices]);
    }
}

/// The same in one mesh of a list, if there is one.
pub fn stray_of(random: &mut Random, list: &List) -> Vec<u8> {
    let mut list = list.clone();
    stray_list(random, &mut list);
    list.spelled().bytes
}

pub fn stray_list(random: &mut Random, list: &mut List) {
    if !list.parts.is_empty() {
        let place = random.below(list.parts.len());
        if let Part::Mesh(mesh) = &mut list.parts[place] {
            stray(random, mesh);
        }
    }
}

/// A copy with one or two damages of any kind.
pub fn damaged(random: &mut Random, spelled: &Spelled) -> Vec<u8> {
    let mut bytes = spelled.bytes.clone();
    for _ in 0..1 + random.below(2) {
        if bytes.is_empty() {
            break;
        }
        let place = random.below(bytes.len());
        match random.below(8) {
            0..=2 => bytes[place] ^= 1 << random.below(8),
            3 => bytes[place] = random.word() as u8,
            4 => bytes.truncate(place),
            5 => bytes.insert(place, random.word() as u8),
            6 => replace(random, &mut bytes, &size_words(spelled), &SIZES),
            _ => replace(random, &mut bytes, &spelled.counts, &COUNTS),
        }
    }
    bytes
}

/// Puts another word over one of those at `places`, if the bytes still reach so far.
fn replace(random: &mut Random, bytes: &mut [u8], places: &[usize], words: &[u32]) {
    if places.is_empty() {
        return;
    }
    let place = random.pick(places);
    if place + 32 > 8 * bytes.len() {
        return;
    }
    let word = read_word(bytes, place);
    let word = match random.below(4) {
        0 => word.wrapping_add(1),
        1 => word.wrapping_sub(1),
        2 => random.any_size() as u32,
        _ => random.pick(words),
    };
    overwrite(bytes, place, word);
}
