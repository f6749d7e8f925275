//! The calls of the view: layouts, pairs, projections, zooms.

use crate::answers::line::{bits, List};
use crate::bits::run_on::boundaries;
use crate::crops::usable::turns;
use crate::inputs::random::Random;
use crate::view::{
    bounds_due, fov_due, layout_due, mix_due, pair_due, panoramic_due, projection_due, window_due,
    windowed_due, zoom_due, EYES, ZOOM_ENDS,
};

/// Numbers that name something are all among these.
const NAMED: u32 = 10;
/// Of the other numbers every so manieth is taken.
const OTHERS: usize = 6;
const RANDOM: usize = 8;

pub fn add(list: &mut List, random: &mut Random) {
    for raw in (0..=NAMED).chain(boundaries().into_iter().step_by(OTHERS)) {
        list.number("layout_from_raw", &[raw], layout_due(raw));
        list.number("is_windowed", &[raw], windowed_due(raw));
        list.number("pair_from_raw", &[raw], pair_due(raw));
        list.number("projection_from_raw", &[raw], projection_due(raw));
        list.number("is_panoramic", &[raw], panoramic_due(raw));
        list.words("projection_bounds", &[raw.into()], &[], &bounds_due(raw));
        eyes(list, raw, random.pick(&EYES));
    }
    for raw in 0..=NAMED {
        eyes(list, raw, 0);
        eyes(list, raw, 1);
    }
    turns().into_iter().for_each(|x| zoom(list, x));
    for end in ZOOM_ENDS.into_iter().chain([10.0, 25.76, 100.0]) {
        let end = end.to_bits();
        (end - 1..=end + 1).for_each(|x| zoom(list, f32::from_bits(x)));
    }
    for _ in 0..RANDOM {
        zoom(list, f32::from_bits(random.word()));
        zoom(list, random.below(1 << 16) as f32 / 256.0);
    }
}

fn eyes(list: &mut List, raw: u32, eye: u32) {
    let args = [raw.into(), eye.into()];
    list.words("uv_window", &args, &[], &window_due(raw, eye));
    list.words("anaglyph_mix", &args, &[], &mix_due(raw, eye));
}

fn zoom(list: &mut List, x: f32) {
    list.number("fov_for_zoom", &[bits(x)], fov_due(x));
    list.number("zoom_for_fov", &[bits(x)], zoom_due(x));
}
