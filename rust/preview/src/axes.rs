//! The unit square of a texture with its axes.

use crate::colours::{DIM, GREY};
use crate::plane::{point, View};
use crate::svg::Svg;

/// Sides below this length have no marks.
const MARKED: f64 = 60.0;

/// The frame of 0 to 1, with marks along its lower and its left side.
pub fn unit_square(svg: &mut Svg, view: &View) {
    svg.rect(
        view.square(),
        &format!("fill=\"none\" stroke=\"{GREY}\" stroke-width=\"1\""),
    );
    if view.scale.x < MARKED || view.scale.y < MARKED {
        return;
    }
    for (share, text) in [(0.0, "0"), (0.5, "u"), (1.0, "1")] {
        let at = view.at(point(share, 0.0));
        svg.words(at.moved(0.0, 16.0), &mark("middle"), text);
    }
    for (share, text) in [(0.0, "0"), (0.5, "v"), (1.0, "1")] {
        let at = view.at(point(0.0, share));
        svg.words(at.moved(-6.0, 4.0), &mark("end"), text);
    }
}

/// The style of a mark with this end, or its middle, at its place.
pub fn mark(anchor: &str) -> String {
    format!("fill=\"{DIM}\" text-anchor=\"{anchor}\"")
}
