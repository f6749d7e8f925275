//! Scene calls of kind 0.

use hoodsorrel::Given;

use crate::crops::equi::{payload, random_fields, Fields};
use crate::inputs::payloads::{cuts, damaged};
use crate::inputs::random::Random;
use crate::options::Options;
use crate::scene::calls::Calls;
use crate::scene::model::Call;
use crate::scene::numbers::{any_given, LARGE_GRIDS, THIN_GRIDS, TOO_LARGE_GRIDS};
use crate::scene::payloads::dressed;
use crate::tally::Tally;

const RANDOM: usize = 16_000;
const QUARTER: u32 = 0x4000_0000;
const HALF: u32 = 0x8000_0000;
/// The largest field that is still below 1 as a float, and the smallest that is not.
const BELOW_ONE: u32 = 0xFFFF_FF7F;
const ONE: u32 = 0xFFFF_FF80;

pub const USABLE: [Fields; 13] = [
    [0; 4],
    [QUARTER, 0, 0, 0],
    [0, QUARTER, 0, 0],
    [QUARTER, QUARTER, 0, 0],
    [0, 0, QUARTER, QUARTER],
    [1, 0, 0, 0],
    [0, 1, 0, 0],
    [1, 1, 1, 1],
    [BELOW_ONE, 0, 0, 0],
    [0, BELOW_ONE, 0, BELOW_ONE],
    [HALF, HALF - 0x100, 0, 0],
    [0, 0, HALF - 0x100, HALF],
    [0x1234_5678, 0x2345_6789, 0x3456_789A, 0x0567_89AB],
];

pub const UNUSABLE: [Fields; 10] = [
    [ONE, 0, 0, 0],
    [0, ONE, 0, 0],
    [0, 0, ONE, 0],
    [0, 0, 0, ONE],
    [HALF, HALF - 0x80, 0, 0],
    [0, 0, HALF - 0x80, HALF],
    [HALF, HALF, 0, 0],
    [0, 0, QUARTER, HALF + QUARTER],
    [u32::MAX, 0, 0, 0],
    [u32::MAX; 4],
];

pub fn run(options: &Options, times: usize) -> Tally {
    let what = "against mesh::parse_equi, pano::sphere_indices_bounded and sphere_mesh_bounded";
    let mut calls = Calls::new(options, "scene kind 0", what);
    small_grids(&mut calls);
    large_grids(&mut calls);
    versions(&mut calls);
    short_payloads(&mut calls);
    for _ in 0..RANDOM * times {
        random_calls(&mut calls);
    }
    calls.tally
}

/// A grid among numbers that kind 0 does not look at.
fn given(random: &mut Random, (rings, sectors): (u32, u32)) -> Given {
    Given {
        rings,
        sectors,
        ..any_given(random)
    }
}

fn call(payload: &[u8], given: Given) -> Call<'_> {
    Call {
        kind: 0,
        payload,
        given,
    }
}

/// All crops on all grids of few rings and sectors.
fn small_grids(calls: &mut Calls) {
    for fields in USABLE.into_iter().chain(UNUSABLE) {
        for rings in 0..=4 {
            for sectors in 0..=5 {
                let payload = dressed(&mut calls.random, &payload(fields));
                let given = given(&mut calls.random, (rings, sectors));
                calls.every(call(&payload, given));
            }
        }
    }
}

/// All crops on grids around the most vertices.
fn large_grids(calls: &mut Calls) {
    let refused = TOO_LARGE_GRIDS.into_iter().chain(THIN_GRIDS);
    for grid in LARGE_GRIDS.into_iter().chain(refused) {
        for fields in USABLE.into_iter().chain(UNUSABLE) {
            let payload = dressed(&mut calls.random, &payload(fields));
            let given = given(&mut calls.random, grid);
            calls.some(call(&payload, given));
        }
    }
}

/// Every version on a usable grid and on one that is not.
fn versions(calls: &mut Calls) {
    for version in 0..=255 {
        let mut payload = dressed(&mut calls.random, &payload([QUARTER; 4]));
        payload[0] = version;
        for grid in [(2, 3), (1, 2)] {
            let given = given(&mut calls.random, grid);
            calls.some(call(&payload, given));
        }
    }
}

fn short_payloads(calls: &mut Calls) {
    for fields in [USABLE[0], USABLE[12], UNUSABLE[0], UNUSABLE[9]] {
        let mut random = Random::new(calls.random.draw(), "cuts");
        cuts(&mut random, &payload(fields), |payload| {
            for grid in [(3, 4), (1, 4)] {
                let given = given(&mut calls.random, grid);
                calls.some(call(payload, given));
            }
        });
    }
}

fn random_calls(calls: &mut Calls) {
    let random = &mut calls.random;
    let fields = match random.below(3) {
        0 => random.pick(&USABLE),
        _ => random_fields(random),
    };
    let whole = dressed(random, &payload(fields));
    let most = random.pick(&[4, 8, 8, 14, 14, 90]);
    let grid = (random.below(most) as u32, random.below(most) as u32);
    let given = given(random, grid);
    let damaged = damaged(random, &whole);
    calls.some(call(&whole, given));
    calls.some(call(&damaged, given));
}
