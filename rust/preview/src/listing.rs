//! What was read: in lines for standard output, and as a table for the page.

use crate::colours::{colour, COLOURS};
use crate::eyes;
use crate::modes;
use crate::numbers::{counted, minus, thousands};
use crate::scene::Counts;
use crate::submeshes::RECORD;
use crate::table::{Side, Table};

const HEADING: &str = "eye texture mode first points";
/// Rows of records that the page shows.
const SHOWN: usize = COLOURS;

pub enum Listing<'a> {
    /// Records, and each texture with its points.
    Records(&'a [u32], &'a [u32], &'a Counts),
    /// Names with their values, and how many bytes were not read.
    Values(Vec<(&'static str, String)>, u64),
}

impl Listing<'_> {
    /// The whole listing, the words of a line separated by one space. Of a mesh list it is the one that `meshlist` prints.
    pub fn text(&self) -> String {
        match self {
            Listing::Records(records, textures, counts) => {
                let lines = records.chunks_exact(RECORD).map(record_line);
                let lines = lines.chain(textures.chunks_exact(2).map(texture_line));
                let lines = lines.collect::<String>();
                let Counts {
                    meshes,
                    submeshes,
                    points,
                } = counts;
                format!("{HEADING}\n{lines}total {meshes} {submeshes} {points}\n")
            }
            Listing::Values(values, unread) => {
                let line = |(name, value): &(&str, String)| format!("{name} {value}\n");
                let lines = values.iter().map(line);
                let last = not_read(*unread).map(|words| format!("{words}\n"));
                lines.chain(last).collect()
            }
        }
    }

    pub fn table(&self) -> Table {
        match self {
            Listing::Records(records, _, counts) => records_table(records, counts),
            Listing::Values(values, unread) => values_table(values, *unread),
        }
    }
}

/// Says how many bytes were not read, where there are any.
pub fn not_read(bytes: u64) -> Option<String> {
    (bytes > 0).then(|| format!("{} not read", counted(bytes, "byte", "bytes")))
}

fn record_line(record: &[u32]) -> String {
    let words: Vec<String> = record.iter().map(u32::to_string).collect();
    format!("{}\n", words.join(" "))
}

fn texture_line(texture: &[u32]) -> String {
    format!("texture {} points {}\n", texture[0], texture[1])
}

fn records_table(records: &[u32], counts: &Counts) -> Table {
    let mut table = Table::new([
        ("eye", Side::Left),
        ("texture", Side::Right),
        ("mode", Side::Left),
        ("first", Side::Right),
        ("points", Side::Right),
    ]);
    let records = records.chunks_exact(RECORD);
    let more = records.len().saturating_sub(SHOWN);
    for (number, record) in records.take(SHOWN).enumerate() {
        let [eye, texture, mode, first, points] = [0, 1, 2, 3, 4].map(|word| record[word]);
        let [texture, first, points] = [texture, first, points].map(|word| thousands(word.into()));
        let words = [eyes::named(eye), texture, modes::named(mode), first, points];
        table.row(Some(colour(number)), words);
    }
    if more > 0 {
        table.line(format!(".. and {} more", thousands(more as u64)));
    }
    table.line(total(counts));
    table
}

fn total(counts: &Counts) -> String {
    format!(
        "total: {}, {}, {}",
        counted(counts.meshes, "mesh", "meshes"),
        counted(counts.submeshes, "submesh", "submeshes"),
        counted(counts.points, "point", "points")
    )
}

fn values_table(values: &[(&str, String)], unread: u64) -> Table {
    let mut table = Table::new([("", Side::Left), ("", Side::Right)]);
    for (name, value) in values {
        table.row(None, [name.to_string(), minus(value)]);
    }
    if let Some(words) = not_read(unread) {
        table.line(words);
    }
    table
}

#[cfg(test)]
mod tests {
    use super::*;
    use crate::plane::point;
    use crate::svg::Svg;

    fn records(submeshes: u32) -> (Vec<u32>, Counts) {
        let records = (0..submeshes)
            .flat_map(|k| [0, 1, k, 300 * k, 300])
            .collect();
        let counts = Counts {
            meshes: 1,
            submeshes: submeshes.into(),
            points: (300 * submeshes).into(),
        };
        (records, counts)
    }

    fn drawn(listing: &Listing) -> String {
        let mut svg = Svg::new("a");
        listing.table().draw(&mut svg, point(0.0, 0.0));
        svg.finish(0.0)
    }

    #[test]
    fn records_as_meshlist_prints_them() {
        let (two, counts) = records(2);
        assert_eq!(
            Listing::Records(&two, &[1, 600], &counts).text(),
            "eye texture mode first points\n0 1 0 0 300\n0 1 1 300 300\ntexture 1 points 600\ntotal 1 2 600\n"
        );
        let (none, counts) = records(0);
        assert_eq!(
            Listing::Records(&none, &[], &counts).text(),
            "eye texture mode first points\ntotal 1 0 0\n"
        );
    }

    #[test]
    fn values_by_name() {
        let values = || {
            vec![
                ("padding", "64".to_string()),
                ("radius", "-2.5".to_string()),
            ]
        };
        let all = Listing::Values(values(), 0);
        assert_eq!(all.text(), "padding 64\nradius -2.5\n");
        assert!(drawn(&all).contains(">\u{2212}2.5<") && !drawn(&all).contains("not read"));
        let some = Listing::Values(values(), 3886);
        assert_eq!(
            some.text(),
            "padding 64\nradius -2.5\n3,886 bytes not read\n"
        );
        assert!(drawn(&some).contains(">3,886 bytes not read<"));
    }

    #[test]
    fn the_page_names_columns_modes_and_totals() {
        let (five, counts) = records(5);
        let svg = drawn(&Listing::Records(&five, &[], &counts));
        for words in ["eye", "texture", "mode", "first", "points", "1,200"] {
            assert!(svg.contains(&format!(">{words}<")), "{words}");
        }
        for words in [
            "0 triangles",
            "1 triangle strip",
            "2 triangle fan",
            "3",
            "4",
        ] {
            assert!(svg.contains(&format!(">{words}<")), "{words}");
        }
        assert!(svg.contains(">total: 1 mesh, 5 submeshes, 1,500 points<"));
    }

    #[test]
    fn the_page_shows_40_records() {
        let drawn = |submeshes| {
            let (records, counts) = records(submeshes);
            drawn(&Listing::Records(&records, &[], &counts))
        };
        let squares = |svg: &str| svg.matches("stroke-width=\"0.5\"").count();
        assert_eq!(squares(&drawn(40)), 40);
        assert!(!drawn(40).contains("more"));
        assert_eq!(squares(&drawn(43)), 40);
        assert!(drawn(43).contains(">.. and 3 more<"));
        assert!(drawn(43).contains(">total: 1 mesh, 43 submeshes, 12,900 points<"));
    }
}
