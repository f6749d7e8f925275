//! Scene calls of kind 1.

use hoodsorrel::Given;

use crate::crops::cbmp::payload;
use crate::grids::shares::{faces_around, MOST_PADDING};
use crate::inputs::payloads::{cuts, damaged};
use crate::inputs::random::Random;
use crate::options::Options;
use crate::scene::calls::Calls;
use crate::scene::model::Call;
use crate::scene::numbers::{any_given, any_radius, faces, FEW_CELLS, MANY_CELLS, PADDINGS, RADII};
use crate::scene::payloads::dressed;
use crate::tally::Tally;

const RANDOM: usize = 16_000;

pub fn run(options: &Options, times: usize) -> Tally {
    let what = "against mesh::parse_cbmp, pano::cubemap_indices and pano::cubemap_mesh with p / F";
    let mut calls = Calls::new(options, "scene kind 1", what);
    few_cells(&mut calls);
    many_cells(&mut calls);
    all_cells(&mut calls);
    halves(&mut calls);
    first_fields(&mut calls);
    short_payloads(&mut calls);
    for _ in 0..RANDOM * times {
        random_calls(&mut calls);
    }
    calls.tally
}

/// Cells, a radius and F among numbers that kind 1 does not look at.
fn given(random: &mut Random, cells: u32, radius: f32, face_width: u32) -> Given {
    Given {
        cells,
        radius,
        face_width,
        ..any_given(random)
    }
}

fn call(payload: &[u8], given: Given) -> Call<'_> {
    Call {
        kind: 1,
        payload,
        given,
    }
}

fn padded(random: &mut Random, padding: u32) -> Vec<u8> {
    dressed(random, &payload(0, padding))
}

/// All paddings, widths of a face and radii on few cells.
fn few_cells(calls: &mut Calls) {
    for cells in FEW_CELLS {
        for padding in PADDINGS {
            for face in faces(padding) {
                for radius in RADII {
                    let payload = padded(&mut calls.random, padding);
                    let given = given(&mut calls.random, cells, radius, face);
                    calls.some(call(&payload, given));
                }
                let payload = padded(&mut calls.random, padding);
                let given = given(&mut calls.random, cells, 1.0, face);
                calls.every(call(&payload, given));
            }
        }
    }
}

/// Each padding with each width of a face and each radius in turn.
fn many_cells(calls: &mut Calls) {
    for cells in MANY_CELLS {
        for padding in PADDINGS {
            for face in faces(padding) {
                let random = &mut calls.random;
                let payload = padded(random, padding);
                let radius = random.pick(&RADII);
                let given = given(random, cells, radius, face);
                calls.some(call(&payload, given));
            }
        }
        for radius in RADII {
            let random = &mut calls.random;
            let payload = padded(random, 7);
            let given = given(random, cells, radius, 1024);
            calls.some(call(&payload, given));
        }
    }
}

/// Every number of cells that is usable, with any padding that is.
fn all_cells(calls: &mut Calls) {
    for cells in 1..=103 {
        let random = &mut calls.random;
        let padding = random.below(MOST_PADDING as usize + 1) as u32;
        let payload = padded(random, padding);
        let given = given(random, cells, 0.1, 2 * padding + 1);
        calls.some(call(&payload, given));
    }
}

/// Some paddings with widths of a face around twice it.
fn halves(calls: &mut Calls) {
    for padding in (0..=MOST_PADDING).step_by(13).chain([MOST_PADDING]) {
        for face in faces_around(padding) {
            let payload = padded(&mut calls.random, padding);
            let given = given(&mut calls.random, 1, -1.0, face);
            calls.some(call(&payload, given));
        }
    }
}

/// Every version, and every single bit of a layout, each with usable cells and with none.
fn first_fields(calls: &mut Calls) {
    let versions = (0..=255).map(|version| (version, 0));
    let layouts = (0..32).map(|bit| (0, 1 << bit));
    for (version, layout) in versions.chain(layouts) {
        for padding in [1, MOST_PADDING + 1] {
            let mut payload = dressed(&mut calls.random, &payload(layout, padding));
            payload[0] = version;
            for cells in [1, 0] {
                let given = given(&mut calls.random, cells, 1.0, 3);
                calls.some(call(&payload, given));
            }
        }
    }
}

fn short_payloads(calls: &mut Calls) {
    for (layout, padding) in [(0, 0), (0, 4096), (0, 4097), (1, 0), (0x0100_0000, 5000)] {
        let mut random = Random::new(calls.random.draw(), "cuts");
        cuts(&mut random, &payload(layout, padding), |payload| {
            for cells in [2, 104] {
                let given = given(&mut calls.random, cells, 1.0, 16_384);
                calls.some(call(payload, given));
            }
        });
    }
}

fn random_calls(calls: &mut Calls) {
    let random = &mut calls.random;
    let padding = random.below(MOST_PADDING as usize + 10) as u32;
    let whole = padded(random, padding);
    let cells = random.below(9) as u32;
    let radius = any_radius(random);
    let face = match random.below(3) {
        0 => random.any_size() as u32,
        1 => random.below(16_386) as u32,
        _ => 2 * padding + random.below(200) as u32,
    };
    let given = given(random, cells, radius, face);
    let damaged = damaged(random, &whole);
    calls.some(call(&whole, given));
    calls.some(call(&damaged, given));
}
