//! The texture coordinates of a mesh list: a panel for each mesh with u and v of its submeshes.

use crate::axes;
use crate::eyes;
use crate::panels::{Extent, Panels};
use crate::plane::{point, Area, Point};
use crate::scene::{Counts, Scene};
use crate::submeshes::{points, submeshes, POINT};
use crate::svg::Svg;

/// Where the words are that stand for the panels of an empty list, below the top.
const NOTE: f64 = 16.0;

/// Draws the panels, and answers where they end.
pub fn draw(svg: &mut Svg, area: Area, scene: &Scene, counts: &Counts) -> f64 {
    if counts.meshes == 0 {
        let at = point(area.left, area.top + NOTE);
        svg.words(at, "", "no meshes");
        return at.y;
    }
    let meshes = counts.meshes as usize;
    let panels = Panels::new(area, meshes, Extent::of(points(scene).map(uv)));
    for mesh in 0..meshes {
        svg.words(panels.heading(mesh), "", eyes::of_mesh(mesh, counts.meshes));
        axes::unit_square(svg, &panels.view(mesh));
    }
    for submesh in submeshes(scene) {
        let view = panels.view(submesh.mesh);
        submesh.draw(svg, view.scale.x, |point| view.at(uv(point)));
    }
    panels.bottom()
}

fn uv([_, _, _, u, v]: [f64; POINT]) -> Point {
    point(u, v)
}

#[cfg(test)]
mod tests {
    use super::*;
    use crate::testing;

    fn points(uvs: &[(f32, f32)]) -> Vec<[f32; POINT]> {
        uvs.iter().map(|&(u, v)| [0.0, 0.0, 0.0, u, v]).collect()
    }

    fn counts(meshes: u64) -> Counts {
        Counts {
            meshes,
            submeshes: meshes,
            points: 3 * meshes,
        }
    }

    fn drawn_of(scene: &Scene, meshes: u64) -> String {
        let area = Area {
            left: 0.0,
            top: 0.0,
            width: 400.0,
            height: 400.0,
        };
        let mut svg = Svg::new("a");
        draw(&mut svg, area, scene, &counts(meshes));
        svg.finish(400.0)
    }

    /// A mesh with one submesh of this mode.
    fn drawn(mode: u32, uvs: &[(f32, f32)]) -> String {
        drawn_of(&testing::scene(mode, &points(uvs)), 1)
    }

    #[test]
    fn one_path_with_all_triangles() {
        let uvs = [(0.0, 0.0), (1.0, 0.0), (0.0, 1.0), (1.0, 1.0), (0.5, 0.5)];
        for (mode, triangles) in [(0, 1), (1, 3), (2, 3)] {
            let svg = drawn(mode, &uvs);
            assert_eq!(svg.matches("<path").count(), 1);
            assert_eq!(svg.matches('M').count(), triangles);
            assert!(svg.contains(">both eyes<") && !svg.contains("no meshes"));
        }
    }

    #[test]
    fn another_mode_has_dots() {
        let svg = drawn(9, &[(0.0, 0.0), (f32::MAX, 0.0), (0.0, 1.0)]);
        assert_eq!(
            (svg.matches("h0").count(), svg.matches("<path").count()),
            (3, 1)
        );
    }

    #[test]
    fn a_list_without_meshes_says_so() {
        let empty = Scene {
            records: Vec::new(),
            ..testing::scene(0, &[])
        };
        assert!(drawn_of(&empty, 0).contains(">no meshes<"));
    }
}
