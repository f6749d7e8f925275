//! A running number held against its limit.

use reference::mesh;

use crate::inputs::random::Random;
use crate::options::Options;
use crate::refusals::STRAY;
use crate::tally::Tally;

const NAME: &str = "run_on";
const RANDOM: u32 = 4_000_000;

pub fn run(options: &Options) -> Vec<Tally> {
    let mut tally = Tally::new(
        options,
        NAME,
        "against `index + zigzag(f)` and its tests in mesh::parse_mesh",
    );
    let values = boundaries();
    for &last in &values {
        for &field in &values {
            for &limit in &values {
                check(&mut tally, last, field, limit);
            }
            close_limits(&mut tally, last, field);
        }
    }
    let mut random = Random::new(options.seed, NAME);
    for _ in 0..RANDOM {
        let (last, field) = (random.any_size() as u32, random.any_size() as u32);
        check(&mut tally, last, field, random.any_size() as u32);
        close_limits(&mut tally, last, field);
    }
    vec![tally]
}

/// The small numbers, the powers of two with their neighbours, and the largest numbers.
pub fn boundaries() -> Vec<u32> {
    let mut values: Vec<u32> = (0..32)
        .flat_map(|power| [(1 << power) - 1, 1 << power, (1 << power) + 1])
        .chain(u32::MAX - 2..=u32::MAX)
        .collect();
    values.sort_unstable();
    values.dedup();
    values
}

/// Where a field takes a running number in the Rust.
pub fn next(last: u32, field: u32) -> i64 {
    i64::from(last) + mesh::zigzag(field) as i64
}

fn close_limits(tally: &mut Tally, last: u32, field: u32) {
    let next = next(last, field);
    for limit in [next - 1, next, next + 1] {
        if let Ok(limit) = u32::try_from(limit) {
            check(tally, last, field, limit);
        }
    }
}

pub fn due(last: u32, field: u32, limit: u32) -> i64 {
    let index = next(last, field);
    if index < 0 || index >= i64::from(limit) {
        -STRAY
    } else {
        index
    }
}

fn check(tally: &mut Tally, last: u32, field: u32, limit: u32) {
    let ours = hoodsorrel::raw::run_on(last, field, limit);
    tally.check(ours, due(last, field, limit), || (last, field, limit));
}
