//! The bits of a float.

use crate::inputs::sweep::float_sweep;
use crate::options::Options;
use crate::tally::Tally;

const NAME: &str = "float_bits";
const NAN: i64 = 0x7FC0_0000;

pub fn run(options: &Options) -> Vec<Tally> {
    let what =
        "against f32::to_bits; a NaN gives 0x7fc00000, its sign and payload are not compared";
    let mut tally = Tally::new(options, NAME, what);
    float_sweep(options, NAME, |bits| check(&mut tally, bits));
    vec![tally]
}

pub fn due(x: f32) -> i64 {
    if x.is_nan() {
        NAN
    } else {
        i64::from(x.to_bits())
    }
}

fn check(tally: &mut Tally, bits: u32) {
    let x = f32::from_bits(bits);
    tally.check(hoodsorrel::raw::float_bits(x), due(x), || bits);
}
