//! A crop: the grid of its texture, at its place on the whole sphere.

use crate::axes::mark;
use crate::colours::{colour, GREY, PALE};
use crate::numbers::minus;
use crate::plane::{point, Area, Point, View};
use crate::scene::{Crop, Given, Scene};
use crate::svg::{decimal, triangles_style, Path, Svg};

/// Words of a vertex: u, v.
const VERTEX: usize = 2;

/// Room for words around the sphere.
const LEFT: f64 = 62.0;
const RIGHT: f64 = 60.0;
const ABOVE: f64 = 26.0;
const BELOW: f64 = 64.0;
/// Two words beside each other need this much, two above each other this.
const APART: f64 = 64.0;
const STACKED: f64 = 14.0;
/// The least side of an outline.
const LEAST: f64 = 0.5;

pub fn values(
    [top, bottom, left, right]: Crop,
    given: Given,
    scene: &Scene,
) -> Vec<(&'static str, String)> {
    vec![
        ("top", top.to_string()),
        ("bottom", bottom.to_string()),
        ("left", left.to_string()),
        ("right", right.to_string()),
        ("rings", given.rings.to_string()),
        ("sectors", given.sectors.to_string()),
        ("numbers", scene.numbers.len().to_string()),
        ("floats", scene.floats.len().to_string()),
        ("records", scene.records.len().to_string()),
    ]
}

/// Draws the grid on the sphere, and answers where that ends.
pub fn draw(svg: &mut Svg, area: Area, crop: Crop, scene: &Scene) -> f64 {
    let sphere = sphere(area);
    let patch = patch(&sphere, crop);
    draw_sphere(svg, &sphere);
    let uv = |vertex: usize| {
        let floats = &scene.floats[VERTEX * vertex..];
        patch.at(Point::of_floats([floats[0], floats[1]]))
    };
    let path = Path::of_triangles(&scene.numbers, uv);
    let triangles = scene.numbers.len() / 3;
    let size = (patch.scale.x * patch.scale.y / triangles as f64).sqrt();
    svg.path(&path, &triangles_style(colour(0), size));
    draw_outline(svg, patch.square());
    draw_longitudes(svg, &sphere, &patch, crop);
    draw_latitudes(svg, &sphere, &patch, crop);
    sphere.origin.y + BELOW
}

/// The sphere's shares: longitude to the right, latitude upwards, both 0 to 1.
fn sphere(area: Area) -> View {
    let width = (area.width - LEFT - RIGHT).min(2.0 * (area.height - ABOVE - BELOW));
    View {
        origin: point(area.left + LEFT, area.top + ABOVE + width / 2.0),
        scale: point(width, width / 2.0),
    }
}

/// Where the crop's texture lies: each side is cut off by its share.
fn patch(sphere: &View, crop: Crop) -> View {
    let [top, bottom, left, right] = crop.map(f64::from);
    View {
        origin: sphere.at(point(left, bottom)),
        scale: point(
            (1.0 - left - right) * sphere.scale.x,
            (1.0 - top - bottom) * sphere.scale.y,
        ),
    }
}

/// The whole sphere: its frame, lines at quarters, and their degrees below and at the left.
fn draw_sphere(svg: &mut Svg, sphere: &View) {
    let at = |x: f64, y: f64| sphere.at(point(x, y));
    let pale = format!("stroke=\"{PALE}\" stroke-width=\"0.7\"");
    for share in [0.25, 0.5, 0.75] {
        svg.line(at(share, 0.0), at(share, 1.0), &pale);
        svg.line(at(0.0, share), at(1.0, share), &pale);
    }
    let frame = format!("fill=\"none\" stroke=\"{GREY}\" stroke-width=\"1\"");
    svg.rect(sphere.square(), &frame);
    for share in [0.0, 0.25, 0.5, 0.75, 1.0] {
        let below = at(share, 0.0).moved(0.0, 18.0);
        svg.words(below, &mark("middle"), &degrees(longitude(share)));
        let beside = at(0.0, share).moved(-6.0, 4.0);
        svg.words(beside, &mark("end"), &degrees(latitude(share)));
    }
    svg.words(at(0.5, 0.0).moved(0.0, 36.0), &mark("middle"), "longitude");
    svg.upward_words(at(0.0, 0.5).moved(-48.0, 0.0), &mark("middle"), "latitude");
    let caption =
        "the grid is the crop's texture: u from left to right, v upwards, both from 0 to 1";
    svg.words(at(0.0, 0.0).moved(0.0, 58.0), "", caption);
}

/// The crop's outline, which shows where the grid is too small to.
fn draw_outline(svg: &mut Svg, part: Area) {
    let seen = Area {
        width: part.width.max(LEAST),
        height: part.height.max(LEAST),
        ..part
    };
    let style = format!("fill=\"none\" stroke=\"{}\" stroke-width=\"1\"", colour(0));
    svg.rect(seen, &style);
}

/// The longitudes of the crop's sides, above the sphere.
fn draw_longitudes(svg: &mut Svg, sphere: &View, patch: &View, [_, _, left, right]: Crop) {
    let above = sphere.square().top;
    let part = patch.square();
    let [west, east] = [f64::from(left), 1.0 - f64::from(right)];
    let ends = if part.width < APART {
        [("end", -2.0), ("start", 2.0)]
    } else {
        [("middle", 0.0); 2]
    };
    for (share, (anchor, aside)) in [west, east].into_iter().zip(ends) {
        let at = point(sphere.at(point(share, 0.0)).x, above);
        svg.line(at, point(at.x, part.top), &dashed());
        let style = format!("fill=\"{}\" text-anchor=\"{anchor}\"", colour(0));
        svg.words(at.moved(aside, -9.0), &style, &degrees(longitude(share)));
    }
}

/// The latitudes of the crop's upper and lower border, at the right of the sphere.
fn draw_latitudes(svg: &mut Svg, sphere: &View, patch: &View, [top, bottom, ..]: Crop) {
    let part = patch.square();
    let [north, south] = [1.0 - f64::from(top), f64::from(bottom)];
    let downs = if part.height < STACKED {
        [-3.0, 11.0]
    } else {
        [4.0; 2]
    };
    for (share, down) in [north, south].into_iter().zip(downs) {
        let at = sphere.at(point(1.0, share));
        svg.line(point(part.left + part.width, at.y), at, &dashed());
        let style = format!("fill=\"{}\"", colour(0));
        svg.words(at.moved(6.0, down), &style, &degrees(latitude(share)));
    }
}

fn dashed() -> String {
    let colour = colour(0);
    format!("stroke=\"{colour}\" stroke-width=\"0.7\" stroke-dasharray=\"3 3\"")
}

/// Of a share from the left.
fn longitude(share: f64) -> f64 {
    360.0 * share - 180.0
}

/// Of a share from below.
fn latitude(share: f64) -> f64 {
    180.0 * share - 90.0
}

fn degrees(x: f64) -> String {
    format!("{}°", minus(&decimal(x)))
}

#[cfg(test)]
mod tests {
    use super::*;

    const UNIT: View = View {
        origin: point(0.0, 100.0),
        scale: point(200.0, 100.0),
    };

    #[test]
    fn each_side_is_cut_off_by_its_share() {
        let patch = patch(&UNIT, [0.125, 0.25, 0.5, 0.0625]).square();
        assert_eq!((patch.left, patch.width), (100.0, 87.5));
        assert_eq!((patch.top, patch.height), (12.5, 62.5));
    }

    #[test]
    fn degrees_of_shares() {
        let [west, east] = [0.25, 1.0 - 0.25].map(longitude);
        assert_eq!(
            (degrees(west), degrees(east)),
            ("\u{2212}90°".into(), "90°".into())
        );
        assert_eq!(degrees(latitude(1.0 - 0.0625)), "78.75°");
        assert_eq!(degrees(latitude(0.0)), "\u{2212}90°");
    }
}
