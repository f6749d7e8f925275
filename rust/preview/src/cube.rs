//! A cube map: its six faces in the texture, with the padding between them.

use crate::axes;
use crate::colours::{colour, GREY};
use crate::plane::{point, Area, Point, View};
use crate::scene::{Given, Scene};
use crate::svg::{triangles_style, Path, Svg};

/// Words of a vertex: x, y, z, u, v.
const VERTEX: usize = 5;
const FACES: usize = 6;
/// The texture's columns and rows, a face in each cell.
const COLUMNS: f64 = 3.0;
const ROWS: f64 = 2.0;
const AXES: [&str; 3] = ["x", "y", "z"];

/// Room for words around the texture.
const LEFT: f64 = 22.0;
const RIGHT: f64 = 10.0;
const ABOVE: f64 = 14.0;
const BELOW: f64 = 46.0;

pub fn values(padding: u32, given: Given, scene: &Scene) -> Vec<(&'static str, String)> {
    vec![
        ("padding", padding.to_string()),
        ("face-width", given.face_width.to_string()),
        ("cells", given.cells.to_string()),
        ("radius", given.radius.to_string()),
        ("numbers", scene.numbers.len().to_string()),
        ("floats", scene.floats.len().to_string()),
        ("records", scene.records.len().to_string()),
    ]
}

/// Draws the faces, and answers where they end.
pub fn draw(svg: &mut Svg, area: Area, scene: &Scene) -> f64 {
    let view = view(area);
    draw_cells(svg, &view);
    let uv = |vertex: usize| view.at(place(&scene.floats[VERTEX * vertex..]));
    let face = view.scale.y / ROWS;
    let triangles = scene.numbers.chunks((scene.numbers.len() / FACES).max(1));
    for (number, numbers) in triangles.enumerate() {
        let path = Path::of_triangles(numbers, uv);
        let size = face / (numbers.len() as f64 / 3.0).sqrt();
        svg.path(&path, &triangles_style(colour(number), size));
    }
    let faces = scene.floats.chunks((scene.floats.len() / FACES).max(1));
    for (number, face) in faces.enumerate() {
        if let Some(direction) = direction(face) {
            draw_label(svg, view.at(middle(face)), &direction, colour(number));
        }
    }
    view.origin.y + BELOW
}

fn view(area: Area) -> View {
    let width = (area.width - LEFT - RIGHT) / COLUMNS;
    let height = (area.height - ABOVE - BELOW) / ROWS;
    let face = width.min(height);
    View {
        origin: point(area.left + LEFT, area.top + ABOVE + ROWS * face),
        scale: point(COLUMNS * face, ROWS * face),
    }
}

/// The texture's frame, and the borders of its cells.
fn draw_cells(svg: &mut Svg, view: &View) {
    let at = |x: f64, y: f64| view.at(point(x, y));
    let dashed = format!("stroke=\"{GREY}\" stroke-width=\"0.7\" stroke-dasharray=\"3 3\"");
    for share in [1.0 / COLUMNS, 2.0 / COLUMNS] {
        svg.line(at(share, 0.0), at(share, 1.0), &dashed);
    }
    svg.line(at(0.0, 1.0 / ROWS), at(1.0, 1.0 / ROWS), &dashed);
    axes::unit_square(svg, view);
    let caption = "the gap between a face and the border of its cell is the padding";
    svg.words(at(0.0, 0.0).moved(0.0, 38.0), "", caption);
}

/// u and v of a vertex.
fn place(vertex: &[f32]) -> Point {
    Point::of_floats([vertex[3], vertex[4]])
}

/// Halfway between a face's first and last vertex.
fn middle(face: &[f32]) -> Point {
    let (first, last) = (place(face), place(&face[face.len() - VERTEX..]));
    point((first.x + last.x) / 2.0, (first.y + last.y) / 2.0)
}

/// The axis along which all vertices of a face lie on one side, with that side's sign.
fn direction(face: &[f32]) -> Option<String> {
    AXES.iter().enumerate().find_map(|(axis, name)| {
        let all = |side: fn(f32) -> bool| {
            let mut vertices = face.chunks_exact(VERTEX);
            vertices.all(|vertex| side(vertex[axis]))
        };
        let sign = match (all(|x| x > 0.0), all(|x| x < 0.0)) {
            (true, _) => "+",
            (_, true) => "\u{2212}",
            _ => return None,
        };
        Some(format!("{sign}{name}"))
    })
}

fn draw_label(svg: &mut Svg, at: Point, direction: &str, colour: &str) {
    let ground = Area {
        left: at.x - 17.0,
        top: at.y - 13.0,
        width: 34.0,
        height: 26.0,
    };
    svg.rect(
        ground,
        &format!("rx=\"4\" fill=\"#fff\" stroke=\"{colour}\" stroke-width=\"0.7\""),
    );
    let style = "font-size=\"16\" text-anchor=\"middle\"";
    svg.words(at.moved(0.0, 5.0), style, direction);
}

#[cfg(test)]
mod tests {
    use super::*;

    fn face(vertices: &[[f32; 3]]) -> Vec<f32> {
        let floats = vertices.iter().flat_map(|&[x, y, z]| [x, y, z, 0.0, 0.0]);
        floats.collect()
    }

    #[test]
    fn a_face_is_named_by_the_axis_it_does_not_cross() {
        let right = [
            [2.0, -2.0, -2.0],
            [2.0, -2.0, 2.0],
            [2.0, 2.0, -2.0],
            [2.0, 2.0, 2.0],
        ];
        assert_eq!(direction(&face(&right)).as_deref(), Some("+x"));
        let back = right.map(|[x, y, z]| [y, z, -x]);
        assert_eq!(direction(&face(&back)).as_deref(), Some("\u{2212}z"));
        assert_eq!(direction(&face(&[[0.0; 3]; 4])), None);
    }
}
