//! The least and the greatest coordinates of a mesh, as a table.

use crate::numbers::measured;
use crate::scene::Scene;
use crate::submeshes::{of_mesh, POINT};
use crate::table::{Side, Table};

const NAMES: [&str; 6] = ["x", "y", "z", "u", "v", "distance"];

/// Of one mesh, which has a point at least.
pub fn table(scene: &Scene, mesh: usize) -> Table {
    let mut ranges = [[f64::INFINITY, f64::NEG_INFINITY]; NAMES.len()];
    for submesh in of_mesh(scene, mesh) {
        for point in submesh.points() {
            for ([least, greatest], value) in ranges.iter_mut().zip(values(point)) {
                *least = least.min(value);
                *greatest = greatest.max(value);
            }
        }
    }
    let mut table = Table::new([
        ("", Side::Left),
        ("least", Side::Right),
        ("greatest", Side::Right),
    ]);
    for (name, range) in NAMES.into_iter().zip(ranges) {
        let [least, greatest] = range.map(measured);
        table.row(None, [name.to_string(), least, greatest]);
    }
    table.line("distance: from the origin".to_string());
    table
}

/// The coordinates, and the distance from the origin.
fn values([x, y, z, u, v]: [f64; POINT]) -> [f64; NAMES.len()] {
    [x, y, z, u, v, x.hypot(y).hypot(z)]
}

#[cfg(test)]
mod tests {
    use super::*;
    use crate::plane::point;
    use crate::svg::Svg;
    use crate::testing;

    #[test]
    fn least_and_greatest_with_the_distance() {
        let points = [[3.0, 0.0, -4.0, 0.25, 0.5], [0.0, f32::MAX, 0.0, 0.0, 0.0]];
        let mut svg = Svg::new("a");
        table(&testing::scene(0, &points), 0).draw(&mut svg, point(0.0, 0.0));
        let svg = svg.finish(0.0);
        for number in ["\u{2212}4.000000", "3.000000", "0.250000", "5.000000"] {
            assert!(svg.contains(&format!(">{number}<")), "{number}");
        }
        // y and the distance
        assert_eq!(svg.matches(">3.4028e38<").count(), 2);
    }
}
