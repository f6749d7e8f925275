//! Whether a crop is usable.

use hoodsorrel::raw::Crop;
use reference::pano::Bounds;

use crate::inputs::random::Random;
use crate::options::Options;
use crate::tally::Tally;

const NAME: &str = "crops";
const RANDOM: u32 = 2_000_000;
/// The bits of 1.0.
pub const ONE: u32 = 0x3F80_0000;
const SIGN: u32 = 0x8000_0000;

pub fn run(options: &Options) -> Vec<Tally> {
    let mut tally = Tally::new(options, NAME, "against pano::Bounds::is_usable");
    let mut random = Random::new(options.seed, NAME);
    every_turn(&mut tally);
    for _ in 0..RANDOM {
        check(&mut tally, [0; 4].map(|_| random_bits(&mut random)));
        sums(&mut tally, &mut random);
    }
    vec![tally]
}

/// The crop as the Rust takes it.
pub fn bounds([top, bottom, left, right]: Crop) -> Bounds {
    Bounds {
        top,
        bottom,
        left,
        right,
    }
}

/// Floats around which a side, or a sum with another one, becomes usable or unusable.
pub fn turns() -> Vec<f32> {
    let least = [0, 1, 2, 0x007F_FFFF, 0x0080_0000, 0x0080_0001];
    // 2^-25 is half the distance from 1.0 to the float below it, 2^-24 all of it.
    let distances = [0x32FF_FFFF, 0x3300_0000, 0x3300_0001, 0x3380_0000];
    let halves = [0x3E80_0000, 0x3EFF_FFFF, 0x3F00_0000, 0x3F00_0001];
    let ones = [ONE - 2, ONE - 1, ONE, ONE + 1, 0x4000_0000];
    let largest = [0x7F7F_FFFF, 0x7F80_0000];
    let no_numbers = [0x7F80_0001, 0x7FC0_0000, 0x7FFF_FFFF];
    let parts: [&[u32]; 6] = [&least, &distances, &halves, &ones, &largest, &no_numbers];
    let bits = parts.concat();
    bits.iter()
        .flat_map(|bits| [*bits, bits | SIGN])
        .map(f32::from_bits)
        .collect()
}

fn every_turn(tally: &mut Tally) {
    let turns = turns();
    for &top in &turns {
        for &bottom in &turns {
            for &left in &turns {
                for &right in &turns {
                    check(tally, [top, bottom, left, right]);
                }
            }
        }
    }
}

/// Any bits, or a number that is at least 0 and below 1.
fn random_bits(random: &mut Random) -> f32 {
    f32::from_bits(match random.below(4) {
        0 => random.word(),
        _ => random.below(ONE as usize) as u32,
    })
}

/// Two sides whose sum is close to 1, beside two that are usable.
fn sums(tally: &mut Tally, random: &mut Random) {
    let x = match random.below(2) {
        0 => f32::from_bits(random.below(ONE as usize) as u32),
        _ => random.below(1 << 24) as f32 / (1 << 24) as f32,
    };
    let rest = (1.0 - x).to_bits();
    for step in 0..=8 {
        let y = f32::from_bits((rest + step).saturating_sub(4));
        check(tally, [x, y, 0.0, 0.25]);
        check(tally, [0.25, 0.0, y, x]);
    }
}

pub fn due(crop: Crop) -> i64 {
    i64::from(bounds(crop).is_usable())
}

fn check(tally: &mut Tally, crop: Crop) {
    let ours = hoodsorrel::raw::is_usable(crop);
    tally.check(ours, due(crop), || crop.map(f32::to_bits));
}
