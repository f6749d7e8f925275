//! The share of a face that its padding takes.

use crate::bits::run_on::boundaries;
use crate::inputs::random::Random;
use crate::options::Options;
use crate::tally::Tally;

const NAME: &str = "padding_share";
pub const MOST_PADDING: u32 = 4096;
pub const MOST_FACE: u32 = 16_384;
const RANDOM: u32 = 1_000_000;

pub fn run(options: &Options) -> Vec<Tally> {
    vec![shares(options), halves(options)]
}

/// Widths of a face around twice a padding.
pub fn faces_around(padding: u32) -> impl Iterator<Item = u32> {
    (2 * padding).saturating_sub(4).max(1)..=2 * padding + 4
}

fn shares(options: &Options) -> Tally {
    let what = "bits against `p as f32 / f as f32`; of a NaN only that it is one";
    let mut tally = Tally::new(options, NAME, what);
    let mut random = Random::new(options.seed, NAME);
    for padding in boundaries() {
        for face in boundaries() {
            check_share(&mut tally, padding, face);
        }
    }
    for padding in 0..=MOST_PADDING {
        for face in faces_around(padding).chain([0, MOST_FACE]) {
            check_share(&mut tally, padding, face);
        }
    }
    for _ in 0..RANDOM {
        check_share(&mut tally, random.word(), random.word());
        let (padding, face) = (random.any_size() as u32, random.any_size() as u32);
        check_share(&mut tally, padding, face);
    }
    tally
}

pub fn due(padding: u32, face: u32) -> f32 {
    padding as f32 / face as f32
}

fn check_share(tally: &mut Tally, padding: u32, face: u32) {
    let due = due(padding, face);
    let ours = hoodsorrel::raw::padding_share(padding, face);
    let is_nan = u32::try_from(ours).is_ok_and(|bits| f32::from_bits(bits).is_nan());
    let due = if is_nan && due.is_nan() {
        ours
    } else {
        i64::from(due.to_bits())
    };
    tally.check(ours, due, || (padding, face));
}

/// A padding is less than half of a face exactly where its share is below one half.
fn halves(options: &Options) -> Tally {
    let what = "the share is below 0.5 exactly where 2p < F, for p up to 4096 and F up to 16384";
    let mut tally = Tally::new(options, "padding_share halves", what);
    for padding in 0..=MOST_PADDING {
        let mut check = |face: u32| {
            let share = f32::from_bits(hoodsorrel::raw::padding_share(padding, face) as u32);
            tally.check(share < 0.5, 2 * padding < face, || (padding, face));
        };
        if options.long {
            (1..=MOST_FACE).for_each(check);
        } else {
            faces_around(padding).for_each(&mut check);
            check(MOST_FACE);
        }
    }
    tally
}
