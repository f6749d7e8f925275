//! A table with aligned columns, at the right of the page.

use crate::colours::{DIM, GREY};
use crate::letters;
use crate::plane::{point, Area, Point};
use crate::svg::Svg;

pub const LINE: f64 = 15.0;
/// Between columns, and between the rows and what stands below them.
const GAP: f64 = 12.0;
const BELOW: f64 = 5.0;
/// The square that shows a row's colour.
const SQUARE: f64 = 9.0;

/// Where a column's words are aligned.
#[derive(Clone, Copy)]
pub enum Side {
    Left,
    Right,
}

struct Row {
    colour: Option<&'static str>,
    words: Vec<String>,
}

pub struct Table {
    /// Their names, empty where a column has none.
    columns: Vec<(String, Side)>,
    rows: Vec<Row>,
    /// What stands below the rows.
    lines: Vec<String>,
}

impl Table {
    pub fn new<const N: usize>(columns: [(&str, Side); N]) -> Table {
        let columns = columns.map(|(name, side)| (name.to_string(), side));
        Table {
            columns: columns.into(),
            rows: Vec::new(),
            lines: Vec::new(),
        }
    }

    /// A word for each column.
    pub fn row<const N: usize>(&mut self, colour: Option<&'static str>, words: [String; N]) {
        let words = words.into();
        self.rows.push(Row { colour, words });
    }

    pub fn line(&mut self, line: String) {
        self.lines.push(line);
    }

    pub fn width(&self) -> f64 {
        let columns = self.widths().iter().map(|width| width + GAP).sum::<f64>() - GAP;
        let lines = self.lines.iter().map(|line| letters::width(line));
        self.indent() + lines.fold(columns, f64::max)
    }

    pub fn height(&self) -> f64 {
        let heading = usize::from(self.has_heading());
        LINE * (heading + self.rows.len() + self.lines.len()) as f64 + BELOW
    }

    /// Draws it with its left upper corner at `corner`.
    pub fn draw(&self, svg: &mut Svg, corner: Point) {
        let mut at = corner.moved(0.0, LINE - 4.0);
        if self.has_heading() {
            let names = self.columns.iter().map(|(name, _)| name.as_str());
            self.draw_row(svg, at, names, &format!("fill=\"{DIM}\""));
            at.y += LINE;
        }
        for Row { colour, words } in &self.rows {
            if let Some(colour) = colour {
                draw_square(svg, at, colour);
            }
            self.draw_row(svg, at, words.iter().map(String::as_str), "");
            at.y += LINE;
        }
        at.y += BELOW;
        for line in &self.lines {
            svg.words(at.moved(self.indent(), 0.0), "", line);
            at.y += LINE;
        }
    }

    fn draw_row<'a>(
        &self,
        svg: &mut Svg,
        at: Point,
        words: impl Iterator<Item = &'a str>,
        style: &str,
    ) {
        let mut left = at.x + self.indent();
        for ((word, width), (_, side)) in words.zip(self.widths()).zip(&self.columns) {
            match side {
                Side::Left => svg.words(point(left, at.y), style, word),
                Side::Right => {
                    let style = format!("{style} text-anchor=\"end\"");
                    svg.words(point(left + width, at.y), style.trim_start(), word);
                }
            }
            left += width + GAP;
        }
    }

    fn has_heading(&self) -> bool {
        self.columns.iter().any(|(name, _)| !name.is_empty())
    }

    /// Room for the squares, where there are any.
    fn indent(&self) -> f64 {
        match self.rows.iter().any(|row| row.colour.is_some()) {
            true => SQUARE + GAP,
            false => 0.0,
        }
    }

    fn widths(&self) -> Vec<f64> {
        let column = |(number, (name, _)): (usize, &(String, Side))| {
            let words = self
                .rows
                .iter()
                .map(|row| letters::width(&row.words[number]));
            words.fold(letters::width(name), f64::max)
        };
        self.columns.iter().enumerate().map(column).collect()
    }
}

fn draw_square(svg: &mut Svg, at: Point, colour: &str) {
    let square = Area {
        left: at.x,
        top: at.y - SQUARE,
        width: SQUARE,
        height: SQUARE,
    };
    svg.rect(
        square,
        &format!("fill=\"{colour}\" stroke=\"{GREY}\" stroke-width=\"0.5\""),
    );
}

#[cfg(test)]
mod tests {
    use super::*;

    fn table() -> Table {
        let mut table = Table::new([("name", Side::Left), ("n", Side::Right)]);
        table.row(None, ["a".to_string(), "22".to_string()]);
        table.row(None, ["bcd".to_string(), "3".to_string()]);
        table
    }

    fn drawn(table: &Table) -> String {
        let mut svg = Svg::new("a");
        table.draw(&mut svg, point(100.0, 0.0));
        svg.finish(0.0)
    }

    #[test]
    fn columns_begin_or_end_at_one_place() {
        let svg = drawn(&table());
        let right = crate::svg::decimal(100.0 + table().width());
        for word in ["name", "a", "bcd"] {
            assert!(svg.contains("<text x=\"100\"") && svg.contains(&format!(">{word}<")));
        }
        for word in ["n", "22", "3"] {
            let end = svg
                .lines()
                .find(|line| line.ends_with(&format!(">{word}</text>")));
            let end = end.expect(word);
            assert!(
                end.contains(&format!("x=\"{right}\"")) && end.contains("\"end\""),
                "{end}"
            );
        }
    }

    #[test]
    fn a_long_line_makes_it_wider() {
        let mut table = table();
        let width = table.width();
        table.line("total".repeat(20));
        assert!(table.width() > width && table.width() >= letters::width(&"total".repeat(20)));
        assert_eq!(table.height(), 4.0 * LINE + BELOW);
    }
}
