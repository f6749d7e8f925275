//! Four bytes as a number.

use crate::inputs::random::Random;
use crate::options::Options;
use crate::tally::Tally;

const NAME: &str = "word_of";
const RANDOM: u32 = 1_000_000;

pub fn run(options: &Options) -> Vec<Tally> {
    let mut tally = Tally::new(options, NAME, "against u32::from_be_bytes");
    let mut random = Random::new(options.seed, NAME);
    for byte in 0..=255 {
        for place in 0..4 {
            for other in [0, 1, 0x7F, 0x80, 0xFF] {
                let mut bytes = [other; 4];
                bytes[place] = byte;
                check(&mut tally, bytes);
            }
        }
    }
    for _ in 0..RANDOM {
        check(&mut tally, random.word().to_ne_bytes());
    }
    vec![tally]
}

pub fn due(bytes: [u8; 4]) -> i64 {
    i64::from(u32::from_be_bytes(bytes))
}

fn check(tally: &mut Tally, [a, b, c, d]: [u8; 4]) {
    let ours = hoodsorrel::raw::word_of(a, b, c, d);
    tally.check(ours, due([a, b, c, d]), || [a, b, c, d]);
}
