//! Box headers.

use reference::mesh::{self, Reader};
use spell::Size;

use crate::inputs::buffers::{largest, place, short_buffers, slice};
use crate::inputs::random::Random;
use crate::lent::answer::Answer;
use crate::mesh::lists;
use crate::mesh::longs::bad_sizes;
use crate::mesh::payloads::any_size;
use crate::options::Options;
use crate::refusals::{BAD_SIZE, SHORT};
use crate::tally::Tally;

const NAME: &str = "headers";
const RANDOM: u32 = 1_000_000;
const LISTS: u32 = 200_000;

pub fn run(options: &Options) -> Vec<Tally> {
    let what = "against two words of mesh::Reader and the tests of mesh::parse_meshes; long sizes by the papers";
    let mut tally = Tally::new(options, NAME, what);
    let mut random = Random::new(options.seed, NAME);
    for data in short_buffers(&mut random, 8) {
        for at in (0..=data.len() + 9).chain(largest()) {
            check(&mut tally, &data, at);
        }
    }
    sizes(&mut tally, &mut random);
    random_places(&mut tally, &mut random);
    let what = "boxes one after the other against mesh::parse_meshes, or with a long size against the model";
    let mut lists = Tally::new(options, "headers of lists", what);
    for _ in 0..LISTS {
        let data = list(&mut random);
        let due = lists::due(&data).is_ok();
        lists.check(ends_well(&data), due, || data.clone());
    }
    vec![tally, long_sizes(options, &mut random), lists]
}

/// Every size around every limit, at every place of buffers that hold a header.
fn sizes(tally: &mut Tally, random: &mut Random) {
    for n in 8..=40 {
        for at in 0..=n - 8 {
            let mut data = random.bytes(n);
            for size in sizes_around(n - at) {
                data[at..at + 4].copy_from_slice(&size.to_be_bytes());
                check(tally, &data, at);
            }
        }
    }
}

/// Sizes around those of the smallest box, of the rest of the payload, and of a number's sign.
fn sizes_around(rest: usize) -> impl Iterator<Item = u32> {
    let rest = rest as u32;
    (0..=17)
        .chain(rest - 2..=rest + 2)
        .chain([0x7FFF_FFFF, 0x8000_0000, 0x8000_0008])
        .chain(u32::MAX - 50..=u32::MAX)
}

/// Every long size around every limit, at every place of buffers that hold it, and cut anywhere.
fn long_sizes(options: &Options, random: &mut Random) -> Tally {
    let what = "long sizes at every limit and cut anywhere, the answer known by plan";
    let mut tally = Tally::new(options, "headers with long sizes", what);
    for n in 8..=40 {
        for at in 0..=n - 8 {
            for size in long_sizes_around(at, n - at) {
                let (data, due) = with_long_size(random, n, at, size);
                check_due(&mut tally, &data, at, &due);
                check(&mut tally, &data, at);
            }
        }
    }
    tally
}

pub fn long_sizes_around(at: usize, rest: usize) -> impl Iterator<Item = u64> {
    let near = (0..=18).chain(rest as u64 - 2..=rest as u64 + 2);
    near.chain(bad_sizes(at, rest, rest))
}

/// Any bytes with this long size at a place, as much of it as they have room for, and the answer there.
pub fn with_long_size(random: &mut Random, n: usize, at: usize, size: u64) -> (Vec<u8>, Answer) {
    let mut data = random.bytes(n);
    let box_type = random.pick(&[mesh::TYPE_MESH, mesh::TYPE_RAW]);
    let header = spell::long_header(box_type.to_be_bytes(), size);
    let there = header.len().min(n - at);
    data[at..at + there].copy_from_slice(&header[..there]);
    let due = if n - at < 16 {
        Answer::refused(SHORT)
    } else if (16..=(n - at) as u64).contains(&size) {
        Answer::words(&[u64::from(box_type), at as u64 + 16, at as u64 + size])
    } else {
        Answer::refused(BAD_SIZE)
    };
    (data, due)
}

fn random_places(tally: &mut Tally, random: &mut Random) {
    let mut pool = random.bytes(4096);
    for size in pool.chunks_exact_mut(4).step_by(3) {
        size[..3].fill(0);
    }
    // Some of the long sizes are short enough, too.
    for header in pool.chunks_exact_mut(16).step_by(5) {
        header[..4].copy_from_slice(&[0, 0, 0, 1]);
        header[8..15].fill(0);
    }
    for _ in 0..RANDOM {
        let data = slice(random, &pool, 300);
        check(tally, data, place(random, data.len()));
    }
}

/// The size and the type at a place, or `None` where the list ends.
fn words(reader: &mut Reader) -> Option<(usize, u32)> {
    Some((reader.u32()? as usize, reader.u32()?))
}

pub fn due(data: &[u8], at: usize) -> Answer {
    let mut reader = Reader { data, position: at };
    let Some((short, box_type)) = words(&mut reader) else {
        return Answer::words(&[]);
    };
    let size = match short {
        1 => words(&mut reader).map(|(high, low)| high << 32 | low as usize),
        _ => Some(short),
    };
    let Some(size) = size else {
        return Answer::refused(SHORT);
    };
    // Both headers end where the reader stands.
    let body = reader.position();
    let end = at.checked_add(size);
    let end = end.filter(|end| (body..=data.len()).contains(end));
    let words = end.map(|end| [u64::from(box_type), body as u64, end as u64]);
    Answer::words_or(words, BAD_SIZE)
}

fn check(tally: &mut Tally, data: &[u8], at: usize) {
    check_due(tally, data, at, &due(data, at));
}

fn check_due(tally: &mut Tally, data: &[u8], at: usize, due: &Answer) {
    tally.call(
        due,
        |words| hoodsorrel::raw::header(data, at, words),
        || (data.to_vec(), at),
    );
}

/// A few boxes of which none is a mesh; some have a wrong size, some a long one, and some bytes follow.
pub fn list(random: &mut Random) -> Vec<u8> {
    let mut data = Vec::new();
    for _ in 0..random.below(5) {
        let body = random.below(20);
        let box_type = random.pick(&[mesh::TYPE_RAW, mesh::TYPE_DFL8]);
        let size = any_size(random);
        let mut header = spell::header(box_type.to_be_bytes(), body, size);
        if random.below(8) == 0 {
            let wrong = (random.below(40) + body) as u8;
            match size {
                Size::Short => header[3] = wrong,
                Size::Long => header[15] = wrong,
            }
        }
        data.extend(header);
        data.extend(random.bytes(body));
    }
    let rest = random.below(10);
    data.extend(random.bytes(rest));
    data
}

/// Walks from box to box: whether the list ends without a bad size.
fn ends_well(data: &[u8]) -> bool {
    let mut words = [0; 3];
    for _ in 0..=data.len() {
        match hoodsorrel::raw::header(data, words[2] as usize, &mut words) {
            3 => {}
            code => return code == 0,
        }
    }
    false
}
