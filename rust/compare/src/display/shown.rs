//! Submeshes shown and hidden, against the plain list of document 02.

use std::fmt;

use hoodsorrel::display::Shown;
use hoodsorrel::{raw, Refusal};

use crate::display::plain_list::{after, total, Handed, Request, MOST};
use crate::display::spoils::{put_behind, spoil, Spoil, SPOILS, WRAPS};
use crate::inputs::random::Random;
use crate::lent::answer::{Answer, Reply};
use crate::lent::fill::{before, check_exactly};
use crate::options::Options;
use crate::tally::Tally;

const NAME: &str = "shown";
/// So many sequences over each length of a record buffer, and so many requests in each.
const SEQUENCES: usize = 12;
const REQUESTS: usize = 600;
/// So many lists of each kind are handed in.
const HANDED: usize = 12;
/// With `--long` there are so many times as many.
const LONGER: usize = 10;
/// Words of a record buffer: no record, words after the last five, one record to 66, and more.
pub const WORDS: [usize; 15] = [
    0, 4, 5, 9, 10, 11, 40, 314, 315, 319, 320, 324, 325, 330, 500,
];
/// Point counts, at the limits of a word too.
const COUNTS: [u32; 7] = [0, 1, 2, 1000, 1 << 31, u32::MAX - 1, u32::MAX];
/// Entries of a lent buffer.
const LENT: [usize; 6] = [0, 1, 63, 64, 65, 70];
/// So many entries behind the lent ones have to stay as they were.
const BEYOND: usize = 3;

pub fn run(options: &Options) -> Vec<Tally> {
    let times = if options.long { LONGER } else { 1 };
    let random = &mut Random::new(options.seed, NAME);
    vec![
        sequences(options, random, times),
        limits(options, random, times),
        faults(options, random, times),
    ]
}

/// Any records in so many words.
pub fn records(random: &mut Random, words: usize) -> Vec<u32> {
    let at_limits = random.below(3) > 0;
    (0..words)
        .map(|place| match place % 5 {
            4 if at_limits => random.pick(&COUNTS),
            _ => random.word(),
        })
        .collect()
}

/// Nothing shown, and any entries.
pub fn none(random: &mut Random) -> Handed {
    Handed {
        entries: (0..MOST).map(|_| random.below(70) as u32).collect(),
        count: 0,
        total: 0,
    }
}

/// So many different records shown, in any order.
pub fn showing(random: &mut Random, words: &[u32], count: usize) -> Handed {
    let mut numbers: Vec<u32> = (0..words.len() as u32 / 5).collect();
    for place in 0..count {
        let other = place + random.below(numbers.len() - place);
        numbers.swap(place, other);
    }
    none(random).holding(words, &numbers[..count])
}

/// The answer that is due, and the list afterwards. A buffer of fewer than 64 entries is refused first.
pub fn due(list: &Handed, words: &[u32], request: Request) -> (Answer, Handed) {
    if list.entries.len() < MOST {
        return (Answer::needs(MOST), list.clone());
    }
    match list.after(words, request) {
        Err(refusal) => (Answer::refused(refusal), list.clone()),
        Ok(numbers) => {
            let after = list.holding(words, &numbers);
            (Answer::words(&[u64::from(after.count), after.total]), after)
        }
    }
}

/// What a call answered, and its buffer afterwards.
#[derive(PartialEq)]
struct Outcome {
    reply: Reply,
    entries: Vec<u32>,
}

impl fmt::Display for Outcome {
    fn fmt(&self, f: &mut fmt::Formatter) -> fmt::Result {
        write!(f, "{}, entries {:x?}", self.reply, self.entries)
    }
}

/// Hands any list in.
fn hand_in(tally: &mut Tally, list: &Handed, words: &[u32], request: Request) {
    let (answer, left) = due(list, words, request);
    let lent = list.entries.len();
    let behind: Vec<u32> = before(BEYOND);
    let mut entries = [&list.entries[..], &behind].concat();
    let &Handed { count, total, .. } = list;
    let (ours, reply) = tally.ask(&answer, |stored| {
        let buffer = &mut entries[..lent];
        match request {
            Request::Show(n) => raw::show(buffer, count, total, n, words, stored),
            Request::Hide(n) => raw::hide(buffer, count, total, n, words, stored),
        }
    });
    let ours = Outcome {
        reply: ours,
        entries,
    };
    let due = Outcome {
        reply,
        entries: [&left.entries[..], &behind].concat(),
    };
    tally.check(ours, due, || (list.clone(), words.to_vec(), request));
}

/// A list after a request in a row of them, and what was said: 0, or the refusal.
#[derive(PartialEq)]
struct Left<'a> {
    said: u8,
    entries: &'a [u32],
    count: u32,
    total: u64,
}

impl fmt::Display for Left<'_> {
    fn fmt(&self, f: &mut fmt::Formatter) -> fmt::Result {
        let Left {
            said,
            entries,
            count,
            total,
        } = self;
        write!(f, "{said}, {count} of {entries:x?}, total {total:x}")
    }
}

/// Shows more than it hides, or the other way round; numbers of records, of shown ones, and others.
fn any_request(random: &mut Random, words: &[u32], list: &[u32], growing: bool) -> Request {
    let known = words.len() / 5;
    let number = match random.below(16) {
        0 => known as u32,
        1 => random.pick(&[known as u32 + 1, WRAPS, 1 << 31, u32::MAX]),
        2..=4 if !list.is_empty() => random.pick(list),
        _ => random.below(known.max(1)) as u32,
    };
    if (random.below(8) < 7) == growing {
        Request::Show(number)
    } else {
        Request::Hide(number)
    }
}

/// The plain list knows the requests and the records alone; the library's own list goes from call to call.
fn sequences(options: &Options, random: &mut Random, times: usize) -> Tally {
    let what = "requests in long rows from the empty list, spoiled lists handed in between";
    let mut tally = Tally::new(options, NAME, what);
    for length in WORDS {
        for _ in 0..SEQUENCES * times {
            let words = records(random, length);
            sequence(&mut tally, random, &words);
        }
    }
    tally
}

fn sequence(tally: &mut Tally, random: &mut Random, words: &[u32]) {
    let mut ours = Shown::none();
    let mut plain: Vec<u32> = Vec::new();
    let mut entries = vec![0; MOST];
    let mut growing = true;
    for _ in 0..REQUESTS {
        growing ^= random.below(90) == 0;
        let request = any_request(random, words, &plain, growing);
        if random.below(3) == 0 {
            let mut list = Handed {
                entries: ours.entries.to_vec(),
                count: ours.count,
                total: ours.total,
            };
            hand_in_spoiled(tally, random, &mut list, words, request);
        }
        let answer = match request {
            Request::Show(number) => ours.show(number, words),
            Request::Hide(number) => ours.hide(number, words),
        };
        let said = match after(words, &plain, request) {
            Ok(list) => {
                entries[..list.len()].copy_from_slice(&list);
                plain = list;
                0
            }
            Err(refusal) => refusal as u8,
        };
        let due = Left {
            said,
            entries: &entries,
            count: plain.len() as u32,
            total: total(words, &plain),
        };
        let left = Left {
            said: answer.err().map_or(0, Refusal::number),
            entries: &ours.entries,
            count: ours.count,
            total: ours.total,
        };
        tally.check(left, due, || (words.to_vec(), request));
    }
}

/// Spoiled in one way, in two, or only behind the count.
fn hand_in_spoiled(
    tally: &mut Tally,
    random: &mut Random,
    list: &mut Handed,
    words: &[u32],
    request: Request,
) {
    let (Request::Show(number) | Request::Hide(number)) = request;
    put_behind(random, list, number);
    for _ in 0..random.below(3) {
        let how = random.pick(&SPOILS);
        spoil(random, words, list, how);
    }
    hand_in(tally, list, words, request);
}

/// The numbers to ask for: shown ones, one that is not, and ones that are no record.
fn numbers(words: &[u32], list: &[u32]) -> Vec<u32> {
    let known = words.len() as u32 / 5;
    let mut numbers = vec![known, known.saturating_add(1), WRAPS, u32::MAX];
    numbers.extend(list.first());
    numbers.extend(list.get(list.len() / 2));
    numbers.extend(list.last());
    numbers.extend((0..known).find(|number| !list.contains(number)));
    numbers.extend((0..known).rev().find(|number| !list.contains(number)));
    numbers
}

/// Each count of shown numbers that is near a limit, over each length of a record buffer, with each number, and in
/// buffers of fewer and of more than 64 entries; the empty list in such buffers; and 65 that are shown.
fn limits(options: &Options, random: &mut Random, times: usize) -> Tally {
    let what = "0, 1, 2, 31 and 62 to 64 shown, over each length of a record buffer, \
                in lent buffers of 0, 1, 63 to 65 and 70 entries; 65 shown";
    let mut tally = Tally::new(options, "shown limits", what);
    for _ in 0..HANDED * times {
        made_empty(&mut tally);
        for length in WORDS {
            if length / 5 > MOST {
                one_more(&mut tally, random, length);
            }
            for count in [0, 1, 2, 31, 62, 63, 64] {
                if count > length / 5 {
                    continue;
                }
                let words = records(random, length);
                let list = showing(random, &words, count);
                for number in numbers(&words, &list.entries[..count]) {
                    each_length(&mut tally, random, &list, &words, number, &LENT);
                }
            }
        }
    }
    tally
}

/// The empty list, in buffers that held something else.
fn made_empty(tally: &mut Tally) {
    for lent in LENT {
        let mut entries: Vec<u32> = before(lent);
        let answer = match entries.get_mut(..MOST) {
            Some(front) => {
                front.fill(0);
                Answer::words(&[0, 0])
            }
            None => Answer::needs(MOST),
        };
        check_exactly(tally, &answer, &entries, raw::none_shown, || lent);
    }
}

/// 65 different records in a buffer of 65 entries, with their total: nothing but the length is wrong.
fn one_more(tally: &mut Tally, random: &mut Random, length: usize) {
    let words = records(random, length);
    let mut entries = showing(random, &words, MOST).entries;
    let other = (0..).find(|number| !entries.contains(number));
    entries.extend(other);
    let list = Handed {
        count: entries.len() as u32,
        total: total(&words, &entries),
        entries,
    };
    for number in numbers(&words, &list.entries) {
        hand_in(tally, &list, &words, Request::Show(number));
        hand_in(tally, &list, &words, Request::Hide(number));
    }
}

/// Shows and hides a number of a list in buffers of these lengths.
fn each_length(
    tally: &mut Tally,
    random: &mut Random,
    list: &Handed,
    words: &[u32],
    number: u32,
    lengths: &[usize],
) {
    for request in [Request::Show(number), Request::Hide(number)] {
        for &lent in lengths {
            let mut list = list.clone();
            put_behind(random, &mut list, number);
            list.entries.resize(lent, number);
            hand_in(tally, &list, words, request);
        }
    }
}

/// A list that is spoiled in one way or two, with every number: no record, shown or not, where 64 are shown too. 19 is
/// due to each, and 12 where fewer than 64 entries are lent.
fn faults(options: &Options, random: &mut Random, times: usize) -> Tally {
    let what = "each way to spoil a list and each two of them, with each fault of a number, \
                in lent buffers of 0 and 63 to 65 entries";
    let mut tally = Tally::new(options, "shown refused", what);
    for _ in 0..HANDED * times {
        for length in WORDS {
            let words = records(random, length);
            for count in [0, 1, 2, 63, 64] {
                if count > length / 5 {
                    continue;
                }
                for first in SPOILS {
                    for second in SPOILS.map(Some).into_iter().chain([None]) {
                        let list = showing(random, &words, count);
                        twice_spoiled(&mut tally, random, list, &words, [Some(first), second]);
                    }
                }
            }
        }
    }
    tally
}

fn twice_spoiled(
    tally: &mut Tally,
    random: &mut Random,
    list: Handed,
    words: &[u32],
    spoils: [Option<Spoil>; 2],
) {
    // Two that change the total may cancel each other.
    if spoils[0] == spoils[1] {
        return;
    }
    for number in numbers(words, &list.entries[..list.count as usize]) {
        let mut list = list.clone();
        put_behind(random, &mut list, number);
        for how in spoils.into_iter().flatten() {
            spoil(random, words, &mut list, how);
        }
        assert!(list.usable(words).is_none(), "{spoils:?} {list:?}");
        each_length(tally, random, &list, words, number, &[0, 63, 64, 65]);
    }
}
