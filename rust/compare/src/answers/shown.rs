//! The calls on lists of shown submeshes.

use crate::answers::line::{lent, Item, List};
use crate::display::plain_list::{Handed, Request, MOST};
use crate::display::shown::{due, records, showing};
use crate::display::spoils::{spoil, SPOILS};
use crate::inputs::random::Random;
use crate::lent::answer::Answer;

/// Words of records, and how many of them are shown.
const CASES: [(usize, usize); 9] = [
    (0, 0),
    (4, 0),
    (5, 0),
    (5, 1),
    (9, 1),
    (10, 1),
    (20, 3),
    (320, 63),
    (325, 64),
];
/// With so many shown there is one line alone: it is long.
const MANY: usize = 63;

pub fn add(list: &mut List, random: &mut Random) {
    for n in [0, 1, 63, 64, 65] {
        none_shown(list, n);
    }
    for (length, count) in CASES {
        let words = records(random, length);
        let handed = bare(showing(random, &words, count));
        let known = (length / 5) as u32;
        if count >= MANY {
            let left = (0..known).find(|n| !handed.entries[..count].contains(n));
            let number = left.expect("more records than are shown");
            put(list, &handed, &words, Request::Show(number));
            continue;
        }
        for number in [0, known.saturating_sub(1), known] {
            put(list, &handed, &words, Request::Show(number));
            put(list, &handed, &words, Request::Hide(number));
        }
    }
    add_spoiled(list, random);
    add_lent(list, random);
    put(list, &short_and_long(0), &[], Request::Show(0));
    put(list, &short_and_long(63), &[], Request::Hide(0));
}

/// A list that is longer than 64, in a buffer of fewer entries.
fn short_and_long(lent: usize) -> Handed {
    Handed {
        entries: vec![u32::BEFORE; lent],
        count: 65,
        total: 0,
    }
}

/// Three records, two of them shown, and each way to spoil the list.
fn add_spoiled(list: &mut List, random: &mut Random) {
    let words = records(random, 15);
    for how in SPOILS {
        let mut handed = bare(showing(random, &words, 2));
        spoil(random, &words, &mut handed, how);
        put(list, &handed, &words, Request::Show(2));
        put(list, &handed, &words, Request::Hide(2));
    }
}

/// Buffers of fewer than 64 entries, and of more.
fn add_lent(list: &mut List, random: &mut Random) {
    let words = records(random, 10);
    for n in [0, 1, 63, 65] {
        let mut handed = bare(showing(random, &words, n.min(1)));
        handed.entries.resize(n, u32::BEFORE);
        put(list, &handed, &words, Request::Show(1));
        put(
            list,
            &handed,
            &words,
            Request::Hide(handed.entries.first().copied().unwrap_or(0)),
        );
    }
}

/// With nothing but the bytes a5 behind the count.
fn bare(mut list: Handed) -> Handed {
    list.entries[list.count as usize..].fill(u32::BEFORE);
    list
}

fn none_shown(list: &mut List, n: usize) {
    let (answer, front) = match n {
        MOST.. => (Answer::words(&[0, 0]), vec![0u32; MOST]),
        _ => (Answer::needs(MOST), Vec::new()),
    };
    list.buffers("none_shown", &[n as u64], &[], &answer, &[&lent(n, &front)]);
}

/// The entries that are not bytes a5 are data, and then the records.
fn put(list: &mut List, handed: &Handed, words: &[u32], request: Request) {
    let (answer, left) = due(handed, words, request);
    let behind = handed.entries.iter().rev();
    let given = handed.entries.len() - behind.take_while(|entry| **entry == u32::BEFORE).count();
    let data = [&handed.entries[..given], words].concat();
    let data: Vec<u8> = data.iter().flat_map(|word| word.to_be_bytes()).collect();
    let (name, number) = match request {
        Request::Show(number) => ("show", number),
        Request::Hide(number) => ("hide", number),
    };
    let lengths = [handed.entries.len(), given, words.len()].map(|n| n as u64);
    let numbers = [handed.total, u64::from(handed.count), u64::from(number)];
    let args = [numbers, lengths].concat();
    list.buffers(name, &args, &data, &answer, &[&left.entries]);
}
