//! The calls of kinds 0 and 1: crops, and their payloads and those of cubes.

use hoodsorrel::raw::Crop;

use crate::answers::line::{bits, lent, List};
use crate::answers::thinned;
use crate::crops::cbmp;
use crate::crops::equi::{self, random_fields, Fields};
use crate::crops::usable::{self, turns};
use crate::grids::sphere;
use crate::inputs::payloads::{cuts, damaged};
use crate::inputs::random::Random;
use crate::scene::crops::{UNUSABLE, USABLE};
use crate::scene::numbers::PADDINGS;
use crate::scene::payloads::dressed;

const RANDOM: usize = 10;
/// Every so manieth of the cuts in each version is taken.
const CUTS: usize = 5;

pub fn add(list: &mut List, random: &mut Random) {
    sides(list, random);
    for fields in USABLE.into_iter().chain(UNUSABLE) {
        let payload = dressed(random, &equi::payload(fields));
        read_crop(list, &payload);
        read_crop(list, &damaged(random, &payload));
        write_crop(list, random, fields);
    }
    for _ in 0..RANDOM {
        let fields = random_fields(random);
        read_crop(list, &equi::payload(fields));
        read_crop(list, &damaged(random, &equi::payload(fields)));
        write_crop(list, random, fields);
    }
    some_cuts(random, &equi::payload(USABLE[12]), |p| read_crop(list, p));
    some_cuts(random, &equi::payload(UNUSABLE[9]), |p| read_crop(list, p));
    paddings(list, random);
    some_cuts(random, &cbmp::payload(0, 4096), |p| read_cube(list, p));
    some_cuts(random, &cbmp::payload(256, 4097), |p| read_cube(list, p));
}

/// The crop that fields make, usable or not.
pub fn add_crop(list: &mut List, random: &mut Random) {
    for fields in USABLE.into_iter().chain(UNUSABLE) {
        crop_of(list, fields);
    }
    for _ in 0..RANDOM {
        crop_of(list, random_fields(random));
        crop_of(list, [0; 4].map(|_| random.word()));
    }
}

fn crop_of(list: &mut List, fields: Fields) {
    let args = fields.map(u64::from);
    list.words("equi_crop", &args, &[], &equi::crop_due(fields));
}

/// Every length up to that of the payload, and some lengths of each version.
fn some_cuts(random: &mut Random, payload: &[u8], mut each: impl FnMut(&[u8])) {
    for n in 0..=payload.len() {
        each(&payload[..n]);
    }
    for cut in thinned(CUTS, |each| cuts(random, payload, each)) {
        each(&cut);
    }
}

fn sides(list: &mut List, random: &mut Random) {
    let turns = turns();
    for &turn in &turns {
        let mut crop = [0.0; 4];
        crop[random.below(4)] = turn;
        usable(list, crop);
        crop[random.below(4)] = random.pick(&turns);
        usable(list, crop);
    }
    for crop in sphere::USABLE.into_iter().chain(sphere::UNUSABLE) {
        usable(list, crop);
    }
    for _ in 0..RANDOM {
        let x = random.below(1 << 24) as f32 / (1 << 24) as f32;
        let near = (1.0 - x).to_bits() + random.below(5) as u32;
        let y = f32::from_bits(near.saturating_sub(2));
        usable(list, [x, y, 0.0, 0.25]);
        usable(list, [0.25, 0.0, y, x]);
    }
}

fn usable(list: &mut List, crop: Crop) {
    list.number("is_usable", &crop.map(bits), usable::due(crop));
}

fn read_crop(list: &mut List, payload: &[u8]) {
    list.words("parse_equi", &[], payload, &equi::due(payload));
}

/// The exact length and another one.
fn write_crop(list: &mut List, random: &mut Random, fields: Fields) {
    for n in [equi::LENT[2], random.pick(&equi::LENT)] {
        let due = equi::write_due(fields, &lent(n, &[]));
        let [t, b, l, r] = fields.map(u64::from);
        let args = [t, b, l, r, n as u64];
        list.buffers("write_equi", &args, &[], &due.answer, &[&due.after]);
    }
}

fn paddings(list: &mut List, random: &mut Random) {
    for padding in PADDINGS {
        for layout in [0, 0, 1 << random.below(32)] {
            let payload = dressed(random, &cbmp::payload(layout, padding));
            read_cube(list, &payload);
            read_cube(list, &damaged(random, &payload));
        }
        for n in cbmp::LENT {
            write_cube(list, padding, n);
        }
    }
    for _ in 0..RANDOM {
        let payload = cbmp::random_payload(random);
        read_cube(list, &payload);
        read_cube(list, &damaged(random, &payload));
        let n = random.pick(&cbmp::LENT);
        write_cube(list, random.below(8192) as u32, n);
    }
}

fn read_cube(list: &mut List, payload: &[u8]) {
    list.words("parse_cbmp", &[], payload, &cbmp::due(payload));
}

fn write_cube(list: &mut List, padding: u32, n: usize) {
    let due = cbmp::write_due(padding, &lent(n, &[]));
    let args = [padding.into(), n as u64];
    list.buffers("write_cbmp", &args, &[], &due.answer, &[&due.after]);
}
