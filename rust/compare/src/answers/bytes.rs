//! The calls of the byte cursor, and headers of boxes.

use crate::answers::line::List;
use crate::bits::cursors;
use crate::bits::headers;
use crate::inputs::buffers::place;
use crate::inputs::random::Random;

/// Lengths of buffers.
const LENGTHS: [usize; 5] = [0, 1, 4, 5, 24];
const PLACES: usize = 10;
/// Lists of boxes, each with places in it.
const LISTS: usize = 10;

pub fn add(list: &mut List, random: &mut Random) {
    list.words("byte_new", &[], &[], &cursors::new_due());
    for _ in 0..PLACES {
        position(list, random.any_size());
    }
    for n in LENGTHS {
        let data = random.bytes(n);
        for at in places(random, n) {
            reads(list, &data, at);
            steps(list, &data, at, any(random, n));
            steps(list, &data, at, n.wrapping_sub(at));
        }
    }
    sizes(list, random);
    long_sizes(list, random);
    for _ in 0..LISTS {
        let data = headers::list(random);
        for at in [0, any(random, data.len()), any(random, data.len())] {
            header(list, &data, at);
        }
    }
}

/// Places around the end and the largest ones.
fn places(random: &mut Random, end: usize) -> Vec<usize> {
    let mut places = vec![0, 1, end, end + 1, usize::MAX - 4, usize::MAX];
    places.extend((1..=5).filter_map(|k| end.checked_sub(k)));
    places.push(place(random, end));
    places.sort_unstable();
    places.dedup();
    places
}

fn any(random: &mut Random, end: usize) -> usize {
    let places = places(random, end);
    random.pick(&places)
}

fn position(list: &mut List, at: usize) {
    let due = cursors::position_due(&[], at);
    list.words("position", &[at as u64], &[], &due);
}

fn reads(list: &mut List, data: &[u8], at: usize) {
    let args = [at as u64];
    position(list, at);
    list.words("remaining", &args, data, &cursors::remaining_due(data, at));
    list.words("u8", &args, data, &cursors::byte_due(data, at));
    list.words("u32", &args, data, &cursors::word_due(data, at));
}

fn steps(list: &mut List, data: &[u8], at: usize, step: usize) {
    let args = [at as u64, step as u64];
    list.words("seek", &args, data, &cursors::seek_due(data, at, step));
    list.words("skip", &args, data, &cursors::skip_due(data, at, step));
}

fn header(list: &mut List, data: &[u8], at: usize) {
    list.words("header", &[at as u64], data, &headers::due(data, at));
}

/// Sizes around the smallest one and around the rest of the buffer.
fn sizes(list: &mut List, random: &mut Random) {
    for n in [8, 9, 16, 21] {
        for at in [0, n - 8] {
            let mut data = random.bytes(n);
            let rest = (n - at) as u32;
            for size in [0, 7, 8, 9, rest - 1, rest, rest + 1, 0x8000_0008, u32::MAX] {
                data[at..at + 4].copy_from_slice(&size.to_be_bytes());
                header(list, &data, at);
            }
        }
    }
}

/// Long sizes around the same, whole and cut.
fn long_sizes(list: &mut List, random: &mut Random) {
    for rest in [8, 9, 12, 15] {
        for at in [0, 5] {
            let (data, _) = headers::with_long_size(random, at + rest, at, rest as u64);
            header(list, &data, at);
        }
    }
    for at in [0, 5] {
        for size in headers::long_sizes_around(at, 23) {
            let (data, _) = headers::with_long_size(random, at + 23, at, size);
            header(list, &data, at);
        }
    }
}
