//! Scene calls with several faults at once. What the model says of them is compared with the first
//! of the faults in document 01's order, which needs no look at the call.

use hoodsorrel::Given;

use crate::crops::cbmp;
use crate::crops::equi::{self, Fields};
use crate::inputs::payloads::{shown, LONGEST};
use crate::inputs::random::Random;
use crate::lent::tables::refused_lengths;
use crate::mesh::plans::{every_plan, first_fault, planned_list, Planned};
use crate::options::Options;
use crate::refusals;
use crate::scene::calls::Calls;
use crate::scene::crops::{UNUSABLE, USABLE};
use crate::scene::model::{due, Call, Due};
use crate::scene::numbers::{
    any_given, small_given, FINITE_RADII, OTHER_KINDS, RADII, TOO_LARGE_GRIDS,
};
use crate::scene::payloads::dressed;
use crate::tally::Tally;

/// Calls with each choice of faults.
const TIMES: usize = 50;
/// Lists by each plan, with each choice of what is wrong besides.
const LISTS: usize = 6;
const MOST_FAULTS: u32 = 3;
/// The padding of the payload of kind 1 that is made wrong.
const PADDING: u32 = 200;

/// A call that is being made wrong.
pub struct Draft {
    pub kind: u32,
    pub bytes: Vec<u8>,
    pub too_long: bool,
    pub given: Given,
    pub short_buffers: bool,
}

/// The refusal that a fault asks for, and the making of it.
pub type Fault = (i64, fn(&mut Draft, &mut Random));

const OTHER_KIND: Fault = (refusals::KIND, |draft, random| {
    draft.kind = random.pick(&OTHER_KINDS)
});
const LONGER: Fault = (refusals::TOO_LONG, |draft, _| draft.too_long = true);
const EMPTY: Fault = (refusals::SHORT, |draft, _| draft.bytes.clear());
const OTHER_VERSION: Fault = (refusals::VERSION, |draft, random| {
    put(draft, 0, 1 + random.below(255) as u8);
});
/// Within the version and the flags.
const CUT_HEADER: Fault = (refusals::SHORT, |draft, random| {
    cut(draft, 1 + random.below(3))
});
const SHORT_BUFFERS: Fault = (refusals::NEEDS, |draft, _| draft.short_buffers = true);

/// In the order of document 01, so that the first one made decides.
pub const CROP_FAULTS: [Fault; 9] = [
    OTHER_KIND,
    LONGER,
    EMPTY,
    OTHER_VERSION,
    CUT_HEADER,
    (refusals::SHORT, |draft, random| {
        cut(draft, 4 + random.below(16))
    }),
    (refusals::GRID, spoil_grid),
    (refusals::CROP, |draft, random| {
        put_sides(draft, random.pick(&UNUSABLE))
    }),
    SHORT_BUFFERS,
];

pub const CUBE_FAULTS: [Fault; 14] = [
    OTHER_KIND,
    LONGER,
    EMPTY,
    OTHER_VERSION,
    CUT_HEADER,
    (refusals::SHORT, |draft, random| {
        cut(draft, 4 + random.below(4))
    }),
    (refusals::CUBE_LAYOUT, |draft, random| {
        put(draft, 4 + random.below(4), 1 << random.below(8));
    }),
    (refusals::SHORT, |draft, random| {
        cut(draft, 8 + random.below(4))
    }),
    (refusals::CUBE_LAYOUT, |draft, random| {
        put(draft, 8 + random.below(2), 1 << random.below(8));
    }),
    (refusals::GRID, |draft, random| {
        draft.given.cells = random.pick(&[0, 104, 255, 256, 257, 65_537, u32::MAX]);
    }),
    (refusals::MEASURES, |draft, random| {
        draft.given.radius = random.pick(&RADII[FINITE_RADII..]);
    }),
    (refusals::MEASURES, |draft, random| {
        draft.given.face_width = random.pick(&[0, 16_385, 65_537, u32::MAX]);
    }),
    (refusals::MEASURES, |draft, random| {
        draft.given.face_width = 1 + random.below(2 * PADDING as usize) as u32;
    }),
    SHORT_BUFFERS,
];

pub fn run(options: &Options, times: usize) -> Vec<Tally> {
    let mut faults = Faults::new(options);
    for _ in 0..TIMES * times {
        for choice in choices(CROP_FAULTS.len()) {
            let draft = whole_crop(&mut faults.calls.random);
            faults.spoiled(draft, &CROP_FAULTS, choice);
        }
        for choice in choices(CUBE_FAULTS.len()) {
            let draft = whole_cube(&mut faults.calls.random);
            faults.spoiled(draft, &CUBE_FAULTS, choice);
        }
    }
    for _ in 0..LISTS * times {
        every_plan().for_each(|plan| faults.list(&plan));
    }
    vec![faults.calls.tally, faults.order]
}

/// Choices of at most three of so many faults, as the bits of a number.
pub fn choices(faults: usize) -> impl Iterator<Item = u32> {
    (0..1u32 << faults).filter(|choice| choice.count_ones() <= MOST_FAULTS)
}

struct Faults {
    calls: Calls,
    order: Tally,
    /// Zeros, one more than a payload may have.
    long: Vec<u8>,
}

impl Faults {
    fn new(options: &Options) -> Faults {
        let what =
            "calls with up to three faults at once, and lists of up to four boxes by plan with up to three more";
        let order = "the model's refusal against the first of the faults in document 01's order";
        Faults {
            calls: Calls::new(options, "scene faults", what),
            order: Tally::new(options, "scene faults order", order),
            long: vec![0; LONGEST + 1],
        }
    }

    fn spoiled(&mut self, mut draft: Draft, faults: &[Fault], choice: u32) {
        let first = spoil(&mut draft, &mut self.calls.random, faults, choice);
        self.check(draft, first);
    }

    fn list(&mut self, plan: &[Planned]) {
        for choice in 0..8 {
            let random = &mut self.calls.random;
            let mut draft = Draft {
                kind: 2,
                bytes: planned_list(random, plan),
                too_long: false,
                given: any_given(random),
                short_buffers: false,
            };
            let before = spoil(&mut draft, random, &[OTHER_KIND, LONGER], choice);
            let within = first_fault(plan);
            let behind = spoil(&mut draft, random, &[SHORT_BUFFERS], choice >> 2);
            self.check(draft, before.or(within).or(behind));
        }
    }

    fn check(&mut self, draft: Draft, first: Option<i64>) {
        let n = draft.bytes.len();
        self.long[..n].copy_from_slice(&draft.bytes);
        let call = Call {
            kind: draft.kind,
            payload: &self.long[..if draft.too_long { LONGEST + 1 } else { n }],
            given: draft.given,
        };
        let due = due(call);
        let refusal = due.as_ref().err().copied().unwrap_or(0);
        let first = first
            .filter(|refusal| *refusal != refusals::NEEDS)
            .unwrap_or(0);
        self.order.check(refusal, first, || shown(call.payload));
        let lent = lent(&mut self.calls.random, &due, draft.short_buffers);
        self.calls.on(call, &due, lent);
        self.long[..n].fill(0);
    }
}

pub fn whole_crop(random: &mut Random) -> Draft {
    let payload = equi::payload(random.pick(&USABLE));
    draft(random, 0, &payload)
}

pub fn whole_cube(random: &mut Random) -> Draft {
    draft(random, 1, &cbmp::payload(0, PADDING))
}

/// A call of few vertices without a fault, its other numbers absurd.
fn draft(random: &mut Random, kind: u32, payload: &[u8]) -> Draft {
    let (small, any) = (small_given(random), any_given(random));
    let given = match kind {
        0 => Given {
            rings: small.rings,
            sectors: small.sectors,
            ..any
        },
        _ => Given {
            rings: any.rings,
            sectors: any.sectors,
            ..small
        },
    };
    Draft {
        kind,
        bytes: dressed(random, payload),
        too_long: false,
        given,
        short_buffers: false,
    }
}

/// Makes the chosen faults and gives the first one's refusal.
pub fn spoil(draft: &mut Draft, random: &mut Random, faults: &[Fault], choice: u32) -> Option<i64> {
    let mut first = None;
    for (place, (refusal, spoil)) in faults.iter().enumerate() {
        if choice >> place & 1 == 1 {
            spoil(draft, random);
            first = first.or(Some(*refusal));
        }
    }
    first
}

/// Puts a byte over another, if it was not cut off.
fn put(draft: &mut Draft, place: usize, byte: u8) {
    if let Some(place) = draft.bytes.get_mut(place) {
        *place = byte;
    }
}

fn put_sides(draft: &mut Draft, fields: Fields) {
    for (place, byte) in equi::payload(fields).into_iter().enumerate().skip(4) {
        put(draft, place, byte);
    }
}

fn cut(draft: &mut Draft, n: usize) {
    draft.bytes.truncate(n);
}

fn spoil_grid(draft: &mut Draft, random: &mut Random) {
    let given = &mut draft.given;
    match random.below(3) {
        0 => given.rings = random.below(2) as u32,
        1 => given.sectors = random.below(3) as u32,
        _ => (given.rings, given.sectors) = random.pick(&TOO_LARGE_GRIDS),
    }
}

/// Lengths to lend, with room for a drawing also where the call is refused, or too short ones.
pub fn lent(random: &mut Random, due: &Due, too_short: bool) -> [usize; 3] {
    match (due, too_short) {
        (Err(_), false) => refused_lengths(random)[1],
        (Err(_), true) => short(random, [9; 3]),
        (Ok(scene), false) => scene.lengths().map(|n| n + random.below(3)),
        (Ok(scene), true) => short(random, scene.lengths()),
    }
}

/// Lengths of which at least one is less than needed, where any item is.
fn short(random: &mut Random, needed: [usize; 3]) -> [usize; 3] {
    let mut lent = needed.map(|n| n + random.below(3));
    let used: Vec<usize> = (0..3).filter(|&place| needed[place] > 0).collect();
    if used.is_empty() {
        return lent;
    }
    for _ in 0..1 + random.below(3) {
        let place = random.pick(&used);
        let any = random.below(needed[place]);
        lent[place] = random.pick(&[0, needed[place] - 1, any]);
    }
    lent
}
