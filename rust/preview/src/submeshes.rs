//! The submeshes of a mesh list, and their drawing on a plane.

use crate::colours::colour;
use crate::eyes;
use crate::plane::Point;
use crate::scene::{triangles, Scene};
use crate::svg::{triangles_style, Path, Svg};

/// Words of a record: eye, texture, mode, first point, points.
pub const RECORD: usize = 5;
/// Words of a drawn point: x, y, z, u, v.
pub const POINT: usize = 5;

pub struct Submesh<'a> {
    number: usize,
    pub mesh: usize,
    record: &'a [u32],
    scene: &'a Scene,
}

/// The submeshes of a scene, in their order.
pub fn submeshes(scene: &Scene) -> impl Iterator<Item = Submesh<'_>> {
    let records = scene.records.chunks_exact(RECORD).enumerate();
    records.map(move |(number, record)| Submesh {
        number,
        mesh: eyes::mesh(record[0]),
        record,
        scene,
    })
}

/// Those of one mesh.
pub fn of_mesh(scene: &Scene, mesh: usize) -> impl Iterator<Item = Submesh<'_>> {
    submeshes(scene).filter(move |submesh| submesh.mesh == mesh)
}

/// The points of all submeshes.
pub fn points(scene: &Scene) -> impl Iterator<Item = [f64; POINT]> + '_ {
    scene.floats.chunks_exact(POINT).map(coordinates)
}

impl Submesh<'_> {
    /// x, y, z, u, v of each point.
    pub fn points(&self) -> impl Iterator<Item = [f64; POINT]> + '_ {
        let [first, count] = [self.record[3], self.record[4]].map(|points| POINT * points as usize);
        let floats = &self.scene.floats[first..first + count];
        floats.chunks_exact(POINT).map(coordinates)
    }

    /// One path on a picture about as wide as `width`: triangles, or the points as dots. `at` says where a point lies
    /// on the page.
    pub fn draw(&self, svg: &mut Svg, width: f64, at: impl Fn([f64; POINT]) -> Point) {
        let place = |point: u32| at(coordinates(&self.scene.floats[POINT * point as usize..]));
        let mut path = Path::default();
        let style = match triangles(self.record) {
            Some(points) => {
                for corners in points.as_chunks::<3>().0 {
                    path.triangle(corners.map(place));
                }
                let size = width / f64::from(self.record[4]).sqrt();
                triangles_style(colour(self.number), size)
            }
            None => {
                self.points().map(&at).for_each(|at| path.dot(at));
                dots_style(colour(self.number))
            }
        };
        svg.path(&path, &style);
    }
}

fn coordinates(floats: &[f32]) -> [f64; POINT] {
    [0, 1, 2, 3, 4].map(|k| f64::from(floats[k]))
}

fn dots_style(colour: &str) -> String {
    format!("fill=\"none\" stroke=\"{colour}\" stroke-width=\"3\" stroke-linecap=\"round\"")
}
