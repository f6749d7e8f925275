//! Where the points of a mesh lie: x, y and z, seen from three sides in one scale.

use crate::plane::{point, Area};
use crate::scene::Scene;
use crate::sides::{Frame, Room, ABOVE, BELOW, LEFT, RIGHT, SIDES};
use crate::submeshes::{of_mesh, Submesh, POINT};
use crate::svg::Svg;

/// A side is no larger.
const LARGEST: f64 = 190.0;

/// Draws the sides of one mesh, and answers where they end.
pub fn draw(svg: &mut Svg, area: Area, scene: &Scene, mesh: usize) -> f64 {
    let submeshes: Vec<Submesh> = of_mesh(scene, mesh).collect();
    let room = Room::of(submeshes.iter().flat_map(Submesh::points).map(place));
    let width = area.width / SIDES.len() as f64;
    let square = (width - LEFT - RIGHT).min(LARGEST);
    for (number, side) in SIDES.iter().enumerate() {
        let corner = point(area.left + number as f64 * width, area.top);
        let frame = Frame::new(corner.moved(LEFT, ABOVE), square, side, &room);
        frame.draw(svg);
        for submesh in &submeshes {
            submesh.draw(svg, square, |point| frame.at(place(point)));
        }
    }
    area.top + ABOVE + square + BELOW
}

fn place([x, y, z, ..]: [f64; POINT]) -> [f64; 3] {
    [x, y, z]
}

#[cfg(test)]
mod tests {
    use super::*;
    use crate::testing;

    const AREA: Area = Area {
        left: 0.0,
        top: 0.0,
        width: 600.0,
        height: 300.0,
    };

    /// A triangle is mesh 0.
    fn drawn(mesh: usize) -> String {
        let mut svg = Svg::new("a");
        let scene = testing::scene(0, &testing::TRIANGLE);
        draw(&mut svg, AREA, &scene, mesh);
        svg.finish(300.0)
    }

    #[test]
    fn three_sides_with_their_axes() {
        let svg = drawn(0);
        for name in ["front", "top", "side"] {
            assert_eq!(svg.matches(&format!(">{name}<")).count(), 1, "{name}");
        }
        for axis in ["x", "y", "z"] {
            assert_eq!(svg.matches(&format!(">{axis}<")).count(), 2, "{axis}");
        }
        assert_eq!(svg.matches("<path").count(), 3);
        assert!(svg.contains("\u{2212}1"));
    }

    #[test]
    fn only_the_points_of_the_mesh() {
        assert_eq!(drawn(1).matches("<path").count(), 0);
    }
}
