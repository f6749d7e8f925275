//! The form of a line: a call, and what it has to answer and to leave behind.

use std::collections::BTreeSet;
use std::fmt::Write;

use crate::answers::calls::CALLS;
use crate::lent::answer::{Answer, MOST_STORED};

/// So many bytes of data, and so many items of each buffer, a line has at most.
const MOST_DATA: usize = 2048;
pub const MOST_OUT: usize = 1024;
pub const MOST_NUMBERS: usize = 4096;
pub const MOST_FLOATS: usize = 4096;
/// Numbers, floats, records.
pub const MOST_DRAWN: [usize; 3] = [MOST_NUMBERS, MOST_FLOATS, 512];
/// Pool, coordinates, submeshes, points.
pub const MOST_TABLES: [usize; 4] = [512, 2048, 512, 2048];
/// Of a list that is no drawing's: numbers of 32 bits.
pub const MOST_LISTED: usize = 4096;
const NAN: u32 = 0x7FC0_0000;

/// FNV-1a in 32 bits.
pub struct Sum(u32);

impl Sum {
    fn of_nothing() -> Sum {
        Sum(0x811C_9DC5)
    }

    fn add(&mut self, bytes: &[u8]) {
        for byte in bytes {
            self.0 = (self.0 ^ u32::from(*byte)).wrapping_mul(0x0100_0193);
        }
    }
}

/// An item of a lent buffer. Its bytes are added with the big end first.
pub trait Item: Copy {
    /// What stands at every place before a call.
    const BEFORE: Self;

    fn add_to(self, sum: &mut Sum);
}

impl Item for u8 {
    const BEFORE: u8 = 0xA5;

    fn add_to(self, sum: &mut Sum) {
        sum.add(&[self]);
    }
}

impl Item for u16 {
    const BEFORE: u16 = 0xA5A5;

    fn add_to(self, sum: &mut Sum) {
        sum.add(&self.to_be_bytes());
    }
}

impl Item for u32 {
    const BEFORE: u32 = 0xA5A5_A5A5;

    fn add_to(self, sum: &mut Sum) {
        sum.add(&self.to_be_bytes());
    }
}

impl Item for u64 {
    const BEFORE: u64 = 0xA5A5_A5A5_A5A5_A5A5;

    fn add_to(self, sum: &mut Sum) {
        sum.add(&self.to_be_bytes());
    }
}

/// A lent buffer after a call.
pub trait Lent {
    fn add_to(&self, sum: &mut Sum);
}

impl<T: Item> Lent for Vec<T> {
    fn add_to(&self, sum: &mut Sum) {
        self.iter().for_each(|item| item.add_to(sum));
    }
}

/// A lent buffer of n items that begins with a list.
pub fn lent<T: Item>(n: usize, list: &[T]) -> Vec<T> {
    let mut items = list.to_vec();
    items.resize(n, T::BEFORE);
    items
}

/// Lengths to lend, none of them above the most.
pub fn bounded<const N: usize>(lent: [usize; N], most: [usize; N]) -> [usize; N] {
    std::array::from_fn(|i| lent[i].min(most[i]))
}

/// The bits of a float. There is one NaN.
pub fn bits(x: f32) -> u32 {
    if x.is_nan() {
        NAN
    } else {
        x.to_bits()
    }
}

/// The bits of floats that arithmetic made.
pub fn made(floats: &[u32]) -> Vec<u32> {
    floats.iter().map(|&x| bits(f32::from_bits(x))).collect()
}

/// The lines, each once.
#[derive(Default)]
pub struct List {
    lines: Vec<(usize, String)>,
    seen: BTreeSet<String>,
}

impl List {
    /// A call that is lent nothing.
    pub fn number(&mut self, name: &str, args: &[u32], due: i64) {
        let args: Vec<u64> = args.iter().copied().map(u64::from).collect();
        self.push(name, &args, &[], due, Sum::of_nothing());
    }

    /// A call on data that is lent nothing.
    pub fn judged(&mut self, name: &str, args: &[u64], data: &[u8], due: i64) {
        self.push(name, args, data, due, Sum::of_nothing());
    }

    /// A call on data that is lent one buffer and no words.
    pub fn filled(&mut self, name: &str, args: &[u64], data: &[u8], due: i64, buffer: &dyn Lent) {
        let mut sum = Sum::of_nothing();
        buffer.add_to(&mut sum);
        self.push(name, args, data, due, sum);
    }

    /// A call that is lent words.
    pub fn words(&mut self, name: &str, args: &[u64], data: &[u8], due: &Answer) {
        self.buffers(name, args, data, due, &[]);
    }

    /// A call that is lent words and buffers.
    pub fn buffers(
        &mut self,
        name: &str,
        args: &[u64],
        data: &[u8],
        due: &Answer,
        buffers: &[&dyn Lent],
    ) {
        let mut words = lent(MOST_STORED, &[]);
        due.store(&mut words);
        let mut sum = Sum::of_nothing();
        words.add_to(&mut sum);
        for buffer in buffers {
            buffer.add_to(&mut sum);
        }
        self.push(name, args, data, due.code(), sum);
    }

    fn push(&mut self, name: &str, args: &[u64], data: &[u8], code: i64, sum: Sum) {
        let place = CALLS.iter().position(|call| call.name == name);
        let place = place.expect("a call has its place in the table");
        assert_eq!(args.len(), CALLS[place].args.len(), "arguments of {name}");
        assert!(data.len() <= MOST_DATA, "data of {name}");
        let line = line(place + 1, args, data, code, sum) + " " + name;
        if self.seen.insert(line.clone()) {
            self.lines.push((place, line));
        }
    }

    /// The lines in the order of the calls.
    pub fn lines(mut self) -> impl Iterator<Item = String> {
        self.lines.sort_by_key(|(place, _)| *place);
        self.lines.into_iter().map(|(_, line)| line)
    }
}

/// A line without the name at its end.
fn line(number: usize, args: &[u64], data: &[u8], code: i64, sum: Sum) -> String {
    let mut line = format!("{number:02x} {:x}", args.len());
    let mut put = |text: std::fmt::Arguments| line.write_fmt(text).expect("memory takes text");
    for arg in args {
        put(format_args!(" {arg:x}"));
    }
    put(format_args!(" x"));
    for byte in data {
        put(format_args!("{byte:02x}"));
    }
    put(format_args!(" {code:016x} {:08x}", sum.0));
    line
}
