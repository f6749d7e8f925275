//! The viewer's small calls.

use reference::pano::{self, AnaglyphPair, Eye, Projection, StereoLayout};

use crate::bits::run_on::boundaries;
use crate::inputs::sweep::{float_sweep, near};
use crate::lent::answer::Answer;
use crate::options::Options;
use crate::tally::Tally;
use crate::Subject;

pub const SUBJECTS: &[Subject] = &[("view", run)];

const NAME: &str = "view";
const DEFAULT_FOV_BITS: u32 = 0x41CE_147B;
/// Eye 0 is the left one, any other number the right one.
pub const EYES: [u32; 5] = [0, 1, 2, 256, u32::MAX];
/// Rounds over the few inputs of the small calls, each with words of other lengths.
const ROUNDS: u32 = 100;
/// Where the field of view becomes its largest and its smallest.
pub const ZOOM_ENDS: [f32; 2] = [0.2576, 2.576];

fn run(options: &Options) -> Vec<Tally> {
    let what =
        "against pano's from_raw, is_windowed, is_panoramic, bounds, uv_window, anaglyph_mix";
    let mut tally = Tally::new(options, NAME, what);
    for _ in 0..ROUNDS {
        for raw in (0..=10).chain(boundaries()) {
            layouts(&mut tally, raw);
            pairs(&mut tally, raw);
            projections(&mut tally, raw);
        }
    }
    vec![tally, zooms(options), fovs(options), default_fov(options)]
}

pub fn layout_due(raw: u32) -> i64 {
    i64::from(StereoLayout::from_raw(raw) as u32)
}

pub fn windowed_due(raw: u32) -> i64 {
    i64::from(StereoLayout::from_raw(raw).is_windowed())
}

pub fn window_due(raw: u32, eye: u32) -> Answer {
    let layout = StereoLayout::from_raw(raw);
    Answer::floats(&pano::uv_window(layout, eye_of(eye)))
}

fn layouts(tally: &mut Tally, raw: u32) {
    tally.check(
        hoodsorrel::raw::layout_from_raw(raw),
        layout_due(raw),
        || ("StereoLayout::from_raw", raw),
    );
    tally.check(hoodsorrel::raw::is_windowed(raw), windowed_due(raw), || {
        ("is_windowed", raw)
    });
    for eye in EYES {
        tally.call(
            &window_due(raw, eye),
            |words| hoodsorrel::raw::uv_window(raw, eye, words),
            || ("uv_window", raw, eye),
        );
    }
}

pub fn pair_due(raw: u32) -> i64 {
    i64::from(AnaglyphPair::from_raw(raw) as u32)
}

pub fn mix_due(raw: u32, eye: u32) -> Answer {
    let pair = AnaglyphPair::from_raw(raw);
    Answer::floats(&pano::anaglyph_mix(pair, eye_of(eye)))
}

fn pairs(tally: &mut Tally, raw: u32) {
    tally.check(hoodsorrel::raw::pair_from_raw(raw), pair_due(raw), || {
        ("AnaglyphPair::from_raw", raw)
    });
    for eye in EYES {
        tally.call(
            &mix_due(raw, eye),
            |words| hoodsorrel::raw::anaglyph_mix(raw, eye, words),
            || ("anaglyph_mix", raw, eye),
        );
    }
}

pub fn projection_due(raw: u32) -> i64 {
    i64::from(Projection::from_raw(raw) as u32)
}

pub fn panoramic_due(raw: u32) -> i64 {
    i64::from(Projection::from_raw(raw).is_panoramic())
}

pub fn bounds_due(raw: u32) -> Answer {
    match Projection::from_raw(raw).bounds() {
        Some(b) => Answer::floats(&[b.top, b.bottom, b.left, b.right]),
        None => Answer::words(&[]),
    }
}

fn projections(tally: &mut Tally, raw: u32) {
    tally.check(
        hoodsorrel::raw::projection_from_raw(raw),
        projection_due(raw),
        || ("Projection::from_raw", raw),
    );
    tally.check(
        hoodsorrel::raw::is_panoramic(raw),
        panoramic_due(raw),
        || ("is_panoramic", raw),
    );
    tally.call(
        &bounds_due(raw),
        |words| hoodsorrel::raw::projection_bounds(raw, words),
        || ("bounds", raw),
    );
}

fn eye_of(eye: u32) -> Eye {
    match eye {
        0 => Eye::Left,
        _ => Eye::Right,
    }
}

pub fn fov_due(zoom: f32) -> i64 {
    i64::from(pano::fov_for_zoom(zoom).to_bits())
}

pub fn zoom_due(fov: f32) -> i64 {
    i64::from(pano::zoom_for_fov(fov).to_bits())
}

fn zooms(options: &Options) -> Tally {
    let what = "bits against pano::fov_for_zoom";
    let mut tally = Tally::new(options, "fov_for_zoom", what);
    let mut check = |bits: u32| {
        let zoom = f32::from_bits(bits);
        tally.check(hoodsorrel::raw::fov_for_zoom(zoom), fov_due(zoom), || bits);
    };
    float_sweep(options, "fov_for_zoom", &mut check);
    for end in ZOOM_ENDS {
        near(end.to_bits()).for_each(&mut check);
    }
    tally
}

fn fovs(options: &Options) -> Tally {
    let what = "bits against pano::zoom_for_fov";
    let mut tally = Tally::new(options, "zoom_for_fov", what);
    float_sweep(options, "zoom_for_fov", |bits| {
        let fov = f32::from_bits(bits);
        tally.check(hoodsorrel::raw::zoom_for_fov(fov), zoom_due(fov), || bits);
    });
    tally
}

/// The field of view at zoom 1, and at a zoom that is none.
fn default_fov(options: &Options) -> Tally {
    let what = "its bits are 0x41ce147b, in the Rust and here";
    let mut tally = Tally::new(options, "DEFAULT_FOV_DEG", what);
    let due = i64::from(DEFAULT_FOV_BITS);
    let theirs = i64::from(pano::DEFAULT_FOV_DEG.to_bits());
    tally.check(theirs, due, || "pano::DEFAULT_FOV_DEG");
    for zoom in [1.0, 0.0, f32::NAN] {
        tally.check(hoodsorrel::raw::fov_for_zoom(zoom), due, || zoom.to_bits());
    }
    tally
}
