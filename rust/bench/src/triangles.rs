//! Microseconds per call of the triangles of records.

use std::hint::black_box;

use crate::timing::medians;

const RUNS: usize = 101;
/// The most that a first point plus its count, or all counts, may come to.
const MOST: u64 = 4_294_967_295;

/// A list to time: its name, and for each record its mode and point count.
type Records = (&'static str, fn(usize) -> (u32, u32), usize);

const LISTS: [Records; 4] = [
    ("one record of mode 0", |_| (0, 1_000_002), 1),
    ("one strip", |_| (1, 1_000_002), 1),
    ("one fan", |_| (2, 1_000_002), 1),
    ("records of 12 points", |k| ((k % 3) as u32, 12), 50_000),
];

pub fn table() -> Result<(), String> {
    println!();
    println!("triangles, one buffer for both sides, exactly as long as needed, warm and not cleared between runs;");
    println!("rust judges all records before it fills, as ours does; medians of {RUNS} runs, ratio = ours / rust");
    println!(
        "{:<22} {:>8} {:>8} {:>8} {:>6}",
        "records", "numbers", "rust_us", "ours_us", "ratio"
    );
    LISTS.iter().try_for_each(row)
}

fn row((name, shape, count): &Records) -> Result<(), String> {
    let records = records(*shape, *count);
    let length = measured(&records).ok_or("records that are refused")?;
    let (mut theirs, mut own) = (vec![0; length], vec![0; length]);
    let made = rust(&records, &mut theirs);
    if made != Some(length) || made != ours(&records, &mut own) || theirs != own {
        return Err(format!("the answers differ: {name}"));
    }
    let (rust, ours) = medians(
        RUNS,
        own,
        |out| rust(black_box(&records), out),
        |out| ours(black_box(&records), out),
    );
    let (rust, ours) = (rust / 1000.0, ours / 1000.0);
    println!(
        "{name:<22} {length:>8} {rust:>8.1} {ours:>8.1} {:>6.3}",
        ours / rust
    );
    Ok(())
}

fn records(shape: fn(usize) -> (u32, u32), count: usize) -> Vec<u32> {
    let mut first = 0;
    let mut words = Vec::with_capacity(5 * count);
    for k in 0..count {
        let (mode, points) = shape(k);
        words.extend([0, 0, mode, first, points]);
        first += points;
    }
    words
}

fn ours(records: &[u32], out: &mut [u32]) -> Option<usize> {
    let mut words = [0];
    let code = hoodsorrel::raw::triangles(records, out, &mut words);
    (code == 1).then_some(words[0] as usize)
}

/// The same in plain Rust.
fn rust(records: &[u32], out: &mut [u32]) -> Option<usize> {
    let length = measured(records)?;
    let out = out.get_mut(..length)?;
    let mut rest = out;
    for &[_, _, mode, first, count] in records.as_chunks().0 {
        let part = 3 * triangles(mode, count);
        let (numbers, behind) = rest.split_at_mut(part);
        put(mode, first, numbers);
        rest = behind;
    }
    Some(length)
}

/// How many numbers there are, where every record is usable.
fn measured(records: &[u32]) -> Option<usize> {
    let (records, left) = records.as_chunks::<5>();
    let (mut points, mut length) = (0, 0);
    for &[_, _, mode, first, count] in records {
        points += u64::from(count);
        if mode > 2 || u64::from(first) + u64::from(count) > MOST || points > MOST {
            return None;
        }
        length += 3 * triangles(mode, count);
    }
    left.is_empty().then_some(length)
}

fn triangles(mode: u32, points: u32) -> usize {
    match mode {
        0 => points as usize / 3,
        _ => points.saturating_sub(2) as usize,
    }
}

fn put(mode: u32, first: u32, numbers: &mut [u32]) {
    let triangles = numbers.as_chunks_mut::<3>().0.iter_mut().zip(0..);
    match mode {
        0 => triangles.for_each(|(out, k)| {
            let p = first + 3 * k;
            *out = [p, p + 1, p + 2];
        }),
        1 => triangles.for_each(|(out, k)| {
            let (p, odd) = (first + k, k % 2);
            *out = [p + odd, p + 1 - odd, p + 2];
        }),
        _ => triangles.for_each(|(out, k)| *out = [first, first + k + 1, first + k + 2]),
    }
}
