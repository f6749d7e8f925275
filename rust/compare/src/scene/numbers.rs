//! Numbers for scene calls: around every limit, and for the kinds that do not look at them.

use hoodsorrel::Given;

use crate::inputs::random::Random;

/// Numbers of no kind, some of which are one in 8 bits.
pub const OTHER_KINDS: [u32; 9] = [3, 4, 5, 255, 256, 257, 258, 0x8000_0000, u32::MAX];
/// Rings and sectors of the largest grids.
pub const LARGE_GRIDS: [(u32, u32); 4] = [(255, 255), (2, 21_844), (3, 16_383), (16_383, 3)];
/// Larger ones. The vertices of some come to few in 32 or in 64 bits.
pub const TOO_LARGE_GRIDS: [(u32, u32); 12] = [
    (255, 256),
    (256, 255),
    (2, 21_845),
    (3, 16_384),
    (16_384, 3),
    (65_535, 65_535),
    (0x3FFF_FFFF, 3),
    (0x7FFF_FFFF, 0x7FFF_FFFF),
    (2, u32::MAX),
    (3, u32::MAX - 1),
    (u32::MAX, 3),
    (u32::MAX, u32::MAX),
];
/// Grids with too few rings or sectors.
pub const THIN_GRIDS: [(u32, u32); 6] = [
    (21_844, 2),
    (1, 32_767),
    (0, 65_535),
    (65_535, 0),
    (u32::MAX, 2),
    (1, u32::MAX),
];
pub const FEW_CELLS: [u32; 4] = [0, 1, 2, 3];
/// The second last is where the Rust's counts begin to wrap.
pub const MANY_CELLS: [u32; 9] = [
    102,
    103,
    104,
    255,
    256,
    65_535,
    715_827_882,
    715_827_883,
    u32::MAX,
];
pub const RADII: [f32; 17] = [
    1.0,
    0.0,
    -0.0,
    -1.0,
    -2.5,
    0.1,
    LEAST,
    -LEAST,
    1e-40,
    f32::MIN_POSITIVE,
    f32::MAX,
    f32::MIN,
    f32::NAN,
    -f32::NAN,
    SIGNALLING,
    f32::INFINITY,
    f32::NEG_INFINITY,
];
/// So many of these are finite, the first ones.
pub const FINITE_RADII: usize = 12;
const LEAST: f32 = f32::from_bits(1);
const SIGNALLING: f32 = f32::from_bits(0x7F80_0001);
pub const PADDINGS: [u32; 11] = [
    0,
    1,
    2,
    3,
    100,
    4095,
    4096,
    4097,
    8192,
    0x8000_0000,
    u32::MAX,
];

/// Widths of a face around every limit and around twice a padding.
pub fn faces(padding: u32) -> [u32; 11] {
    let twice = padding.saturating_mul(2);
    [
        0,
        1,
        2,
        twice.saturating_sub(1),
        twice,
        twice.saturating_add(1),
        16_383,
        16_384,
        16_385,
        0x8000_0000,
        u32::MAX,
    ]
}

/// Numbers that no kind is to look at: some usable, some absurd, some any.
pub fn any_given(random: &mut Random) -> Given {
    Given {
        rings: any_number(random),
        sectors: any_number(random),
        cells: any_number(random),
        radius: any_radius(random),
        face_width: any_number(random),
    }
}

/// Numbers that every kind draws with, on few vertices.
pub fn small_given(random: &mut Random) -> Given {
    Given {
        rings: 2 + random.below(4) as u32,
        sectors: 3 + random.below(4) as u32,
        cells: 1 + random.below(3) as u32,
        radius: random.pick(&RADII[..FINITE_RADII]),
        face_width: 8193 + random.below(8192) as u32,
    }
}

fn any_number(random: &mut Random) -> u32 {
    match random.below(5) {
        0 => 0,
        1 => u32::MAX,
        2 => random.word(),
        3 => random.any_size() as u32,
        _ => 1 + random.below(8) as u32,
    }
}

pub fn any_radius(random: &mut Random) -> f32 {
    match random.below(2) {
        0 => f32::from_bits(random.word()),
        _ => random.pick(&RADII),
    }
}
