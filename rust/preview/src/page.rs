//! The page: a heading, the picture, and what was read at its right.

use crate::letters;
use crate::listing::{not_read, Listing};
use crate::options::Drawn;
use crate::plane::{point, Area};
use crate::scene::{Counts, Reading, Scene};
use crate::svg::{Svg, WIDTH};
use crate::table::Table;
use crate::{cube, eyes, ranges, space, sphere, textures};

/// Heights of the picture of a crop or a cube map, and of a mesh list's textures.
const HEIGHT: f64 = 458.0;
const TEXTURES: f64 = 360.0;
const MARGIN: f64 = 18.0;
/// Where the picture and the table begin.
const TOP: f64 = 44.0;
/// Room for a name in the heading.
const NAME: f64 = 300.0;
const BOLD: &str = "font-size=\"14\" font-weight=\"bold\"";

/// The listing, and the page as SVG.
pub fn page<'a>(name: &str, drawn: Drawn, scene: &'a Scene, unread: u64) -> (Listing<'a>, String) {
    let what = match scene.reading {
        Reading::Crop(_) => "a crop of the sphere (equi)",
        Reading::Padding(_) => "a cube map (cbmp)",
        Reading::Meshes(_) => "a mesh list",
    };
    let what = match not_read(unread) {
        Some(words) => format!("{what}, {words}"),
        None => what.to_string(),
    };
    let mut svg = Svg::new(&format!("{name}: {what}"));
    let heading = format!("{}: {what}", letters::cut(name, NAME));
    svg.words(point(MARGIN, 26.0), BOLD, &heading);
    let listing = listing(drawn, scene, unread);
    let bottom = draw(&mut svg, drawn, scene, &listing.table());
    (listing, svg.finish(bottom + MARGIN))
}

fn listing(drawn: Drawn, scene: &Scene, unread: u64) -> Listing<'_> {
    match &scene.reading {
        Reading::Crop(crop) => Listing::Values(sphere::values(*crop, drawn.given, scene), unread),
        Reading::Padding(padding) => {
            Listing::Values(cube::values(*padding, drawn.given, scene), unread)
        }
        Reading::Meshes(counts) => Listing::Records(&scene.records, &scene.textures, counts),
    }
}

/// Draws the picture and the table, and answers where they end.
fn draw(svg: &mut Svg, drawn: Drawn, scene: &Scene, table: &Table) -> f64 {
    match &scene.reading {
        Reading::Crop(crop) => beside(svg, TOP, HEIGHT, table, |svg, area| {
            sphere::draw(svg, area, *crop, scene)
        }),
        Reading::Padding(_) => beside(svg, TOP, HEIGHT, table, |svg, area| {
            cube::draw(svg, area, scene)
        }),
        Reading::Meshes(counts) => draw_meshes(svg, drawn.mesh, scene, counts, table),
    }
}

/// The textures beside the records, and below them one mesh in space beside its ranges.
fn draw_meshes(svg: &mut Svg, mesh: usize, scene: &Scene, counts: &Counts, table: &Table) -> f64 {
    let height = TEXTURES.max(table.height());
    let bottom = beside(svg, TOP, height, table, |svg, area| {
        textures::draw(svg, area, scene, counts)
    });
    if counts.meshes == 0 {
        return bottom;
    }
    let heading = point(MARGIN, bottom + 2.0 * MARGIN);
    let whose = eyes::of_mesh(mesh, counts.meshes);
    svg.words(heading, BOLD, &format!("mesh {mesh}, {whose}, in space"));
    let ranges = ranges::table(scene, mesh);
    beside(svg, heading.y + MARGIN, 0.0, &ranges, |svg, area| {
        space::draw(svg, area, scene, mesh)
    })
}

/// A table at the right side of the page, and at its left what `draw` draws into the rest.
fn beside(
    svg: &mut Svg,
    top: f64,
    height: f64,
    table: &Table,
    draw: impl FnOnce(&mut Svg, Area) -> f64,
) -> f64 {
    let left = WIDTH - MARGIN - table.width();
    table.draw(svg, point(left, top));
    let area = Area {
        left: MARGIN,
        top,
        width: left - 2.0 * MARGIN,
        height,
    };
    draw(svg, area).max(top + table.height())
}
