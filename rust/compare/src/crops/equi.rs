//! The reader and the writer of kind 0.

use reference::mesh;
use reference::pano::Bounds;

use crate::bits::run_on::boundaries;
use crate::bits::scale;
use crate::crops::usable::bounds;
use crate::inputs::payloads::{self, damaged, shown};
use crate::inputs::random::Random;
use crate::inputs::sweep::{sample, sweep};
use crate::lent::answer::Answer;
use crate::lent::put::{self, Due};
use crate::options::Options;
use crate::refusals::{CROP, SHORT, VERSION};
use crate::tally::Tally;

const NAME: &str = "equi";
const LENGTH: usize = 20;
const RANDOM: u32 = 1_000_000;
const WRITTEN: u32 = 200_000;
/// Lengths to lend to the writer.
pub const LENT: [usize; 5] = [0, 19, 20, 21, 40];

/// t, b, l, r.
pub type Fields = [u32; 4];

pub fn run(options: &Options) -> Vec<Tally> {
    let what = "against mesh::parse_equi, with the number of its refusal";
    let mut tally = Tally::new(options, NAME, what);
    let what = "no payload above 67108864 bytes";
    let mut beyond = Tally::new(options, "equi beyond the Rust", what);
    let what = "answer and buffer against to_be_bytes, read back with mesh::parse_equi";
    let mut writes = Tally::new(options, "equi written", what);
    let what = "each side against `scale` of mesh::parse_equi, usable or not";
    let mut crops = Tally::new(options, "equi crop", what);
    let mut random = Random::new(options.seed, NAME);
    single_fields(options, &mut tally);
    for fields in pairs() {
        check(&mut tally, &payload(fields));
    }
    lengths(&mut tally, &mut beyond, &mut random);
    for _ in 0..RANDOM {
        let payload = payload(random_fields(&mut random));
        check(&mut tally, &payload);
        check(&mut tally, &damaged(&mut random, &payload));
        let n = random.below(64);
        check(&mut tally, &random.bytes(n));
    }
    written(&mut writes, &mut random);
    cropped(&mut crops, &mut random);
    vec![tally, beyond, writes, crops]
}

pub fn payload(fields: Fields) -> [u8; LENGTH] {
    let mut bytes = [0; LENGTH];
    for (place, field) in bytes[4..].chunks_exact_mut(4).zip(fields) {
        place.copy_from_slice(&field.to_be_bytes());
    }
    bytes
}

fn fields_of(payload: &[u8]) -> Fields {
    std::array::from_fn(|i| {
        let at = 4 + 4 * i;
        u32::from_be_bytes(std::array::from_fn(|k| payload[at + k]))
    })
}

/// One field, the others 0: all its values, or a sample; of the other three a sample.
fn single_fields(options: &Options, tally: &mut Tally) {
    sweep(options, NAME, |v| check(tally, &payload([v, 0, 0, 0])));
    for place in 1..4 {
        sample(options, NAME, |v| {
            let mut fields = [0; 4];
            fields[place] = v;
            check(tally, &payload(fields));
        });
    }
}

/// Two fields on both sides of one half, where their sum comes to 1 or is rounded to it.
fn pairs() -> impl Iterator<Item = Fields> {
    let half = 0x8000_0000u32;
    (half - 600..=half + 600).flat_map(move |x| {
        (half - 600..=half + 600).flat_map(move |y| [[x, y, 0, 0], [0, 0, x, y]])
    })
}

fn lengths(tally: &mut Tally, beyond: &mut Tally, random: &mut Random) {
    let mut payloads = vec![
        payload([0; 4]),
        payload([u32::MAX; 4]),
        payload([0x8000_0000, 0x7FFF_FF00, 0, 0]),
        payload([0x8000_0000, 0x7FFF_FF80, 0, 0]),
        [0xFF; LENGTH],
    ];
    payloads.extend((0..200).map(|_| payload(random_fields(random))));
    payloads::lengths(
        random,
        beyond,
        &payloads,
        |payload| check(tally, payload),
        hoodsorrel::raw::parse_equi,
    );
}

/// Any fields, or two opposite ones whose sum is close to 2^32, beside two others.
pub fn random_fields(random: &mut Random) -> Fields {
    let x = random.word();
    let y = (random.below(1200) as u32)
        .wrapping_sub(600)
        .wrapping_sub(x);
    let z = random.any_size() as u32;
    match random.below(6) {
        0 => [x, y, 0, z],
        1 => [z, 0, x, y],
        2 => [x, random.word(), random.word(), z],
        _ => [0; 4].map(|_| random.any_size() as u32 >> 1),
    }
}

/// What the Rust's `None` stands for.
pub fn refusal(payload: &[u8]) -> i64 {
    match payload.first() {
        None => SHORT,
        Some(&version) if version != 0 => VERSION,
        _ if payload.len() < LENGTH => SHORT,
        _ => CROP,
    }
}

fn bits(crop: Bounds) -> Fields {
    [crop.top, crop.bottom, crop.left, crop.right].map(f32::to_bits)
}

pub fn due(payload: &[u8]) -> Answer {
    let Some(crop) = mesh::parse_equi(payload) else {
        return Answer::refused(refusal(payload));
    };
    let [t, b, l, r] = fields_of(payload);
    let [top, bottom, left, right] = bits(crop);
    Answer::words(&[t, b, l, r, top, bottom, left, right].map(u64::from))
}

fn check(tally: &mut Tally, payload: &[u8]) {
    tally.call(
        &due(payload),
        |words| hoodsorrel::raw::parse_equi(payload, words),
        || shown(payload),
    );
}

/// What `EquiFields::crop` answers, of usable fields and of others.
pub fn crop_due(fields: Fields) -> Answer {
    Answer::words(&fields.map(|v| scale::due(v) as u64))
}

fn cropped(tally: &mut Tally, random: &mut Random) {
    for v in boundaries() {
        for w in boundaries() {
            crop(tally, [v, w, !w, !v]);
        }
    }
    for _ in 0..WRITTEN {
        crop(tally, random_fields(random));
        crop(tally, [0; 4].map(|_| random.word()));
    }
}

fn crop(tally: &mut Tally, fields: Fields) {
    tally.call(
        &crop_due(fields),
        |words| hoodsorrel::raw::equi_crop(fields, words),
        || fields,
    );
}

fn written(tally: &mut Tally, random: &mut Random) {
    for fields in pairs().step_by(29) {
        write(tally, random, fields, LENGTH);
    }
    for _ in 0..WRITTEN {
        let fields = random_fields(random);
        for lent in LENT {
            write(tally, random, fields, lent);
        }
    }
}

pub fn write_due(fields: Fields, before: &[u8]) -> Due<Fields> {
    let crop = bounds(fields.map(|v| v as f32 / 4_294_967_296.0));
    if !crop.is_usable() {
        return Due::unchanged(Answer::refused(CROP), before);
    }
    if before.len() < LENGTH {
        return Due::unchanged(Answer::needs(LENGTH), before);
    }
    let mut after = before.to_vec();
    after[..LENGTH].copy_from_slice(&payload(fields));
    Due::done(Answer::place(LENGTH), after, bits(crop))
}

fn write(tally: &mut Tally, random: &mut Random, fields: Fields, lent: usize) {
    let before = random.bytes(lent);
    put::check(
        tally,
        write_due(fields, &before),
        &before,
        |out, words| hoodsorrel::raw::write_equi(fields, out, words),
        |out| mesh::parse_equi(out).map(bits),
        || (fields, before.clone()),
    );
}
