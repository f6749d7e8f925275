//! Whole scene calls.

pub mod calls;
pub mod crops;
pub mod cubes;
pub mod faults;
pub mod lists;
pub mod model;
pub mod numbers;
pub mod payloads;

use self::calls::Calls;
use self::model::Call;
use self::numbers::{any_given, small_given, OTHER_KINDS};
use self::payloads::payload_of;
use crate::crops::cbmp;
use crate::crops::equi;
use crate::inputs::payloads::LONGEST;
use crate::mesh::payloads::{lone, m1};
use crate::mesh::plans::every_longest;
use crate::options::Options;
use crate::tally::Tally;
use crate::Subject;

pub const SUBJECTS: &[Subject] = &[("scene", run)];

const RANDOM: usize = 1500;
/// With `--long` there are so many times as many.
const LONGER: usize = 10;

fn run(options: &Options) -> Vec<Tally> {
    let times = if options.long { LONGER } else { 1 };
    let mut tallies = vec![
        crops::run(options, times),
        cubes::run(options, times),
        lists::run(options, times),
        any_kinds(options, times),
        longest(options),
    ];
    tallies.extend(faults::run(options, times));
    tallies
}

/// Payloads of each kind and of none, with every kind and with numbers of none.
fn any_kinds(options: &Options, times: usize) -> Tally {
    let what = "payloads of each kind read as every kind and as none";
    let mut calls = Calls::new(options, "scene any kind", what);
    for _ in 0..RANDOM * times {
        for of in 0..4 {
            let random = &mut calls.random;
            let payload = payload_of(random, of);
            let given = match random.below(3) {
                0 => any_given(random),
                _ => small_given(random),
            };
            for kind in (0..3).chain(OTHER_KINDS) {
                calls.some(Call {
                    kind,
                    payload: &payload,
                    given,
                });
            }
        }
    }
    calls.tally
}

/// As long as a payload may be, and one byte longer.
fn longest(options: &Options) -> Tally {
    let what = "payloads of 67108864 bytes and one byte more, read as every kind and as none";
    let mut calls = Calls::new(options, "scene longest", what);
    let mut list = lone(&m1());
    list.extend(((LONGEST - list.len()) as u32).to_be_bytes());
    list.extend(b"free");
    let payloads = [
        equi::payload([1, 2, 3, 4]).to_vec(),
        cbmp::payload(0, 5).to_vec(),
        list,
    ];
    let mut bytes = vec![0; LONGEST + 1];
    for payload in payloads {
        bytes[..payload.len()].copy_from_slice(&payload);
        for kind in (0..3).chain([3, u32::MAX]) {
            let given = small_given(&mut calls.random);
            for n in [LONGEST, LONGEST + 1] {
                calls.some(Call {
                    kind,
                    payload: &bytes[..n],
                    given,
                });
            }
        }
        bytes[..payload.len()].fill(0);
    }
    every_longest(|payload, _| {
        let given = small_given(&mut calls.random);
        calls.some(Call {
            kind: 2,
            payload,
            given,
        });
    });
    calls.tally
}
