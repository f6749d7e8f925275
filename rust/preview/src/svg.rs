//! SVG text: elements, numbers and names.

use std::fmt::Write;

use crate::colours::INK;
use crate::plane::{Area, Point};

pub const WIDTH: f64 = 900.0;

/// The style of triangles about as large as `size`: lines that leave room between them, and a fill of low opacity.
pub fn triangles_style(colour: &str, size: f64) -> String {
    let width = decimal((size / 8.0).clamp(0.05, 0.7));
    format!(
        "fill=\"{colour}\" fill-opacity=\"0.35\" stroke=\"{colour}\" stroke-width=\"{width}\" \
         stroke-linejoin=\"round\""
    )
}

/// The page. Words are escaped here.
pub struct Svg {
    title: String,
    text: String,
}

impl Svg {
    pub fn new(title: &str) -> Svg {
        Svg {
            title: escape(title),
            text: String::new(),
        }
    }

    /// The whole text of a page with this height.
    pub fn finish(self, height: f64) -> String {
        let Svg { title, text } = self;
        let (width, height) = (decimal(WIDTH), decimal(height));
        format!(
            "<svg xmlns=\"http://www.w3.org/2000/svg\" width=\"{width}\" height=\"{height}\" \
             viewBox=\"0 0 {width} {height}\" font-family=\"sans-serif\" font-size=\"12\" fill=\"{INK}\">\n\
             <title>{title}</title>\n\
             <rect width=\"{width}\" height=\"{height}\" fill=\"#fff\"/>\n\
             {text}</svg>\n"
        )
    }

    /// `style` is more attributes.
    pub fn rect(&mut self, area: Area, style: &str) {
        let [x, y, width, height] = [area.left, area.top, area.width, area.height].map(decimal);
        self.put(format_args!(
            "<rect x=\"{x}\" y=\"{y}\" width=\"{width}\" height=\"{height}\" {style}/>"
        ));
    }

    pub fn line(&mut self, from: Point, to: Point, style: &str) {
        let [x1, y1, x2, y2] = [from.x, from.y, to.x, to.y].map(decimal);
        self.put(format_args!(
            "<line x1=\"{x1}\" y1=\"{y1}\" x2=\"{x2}\" y2=\"{y2}\" {style}/>"
        ));
    }

    /// Nothing for a path without parts.
    pub fn path(&mut self, path: &Path, style: &str) {
        if !path.text.is_empty() {
            self.put(format_args!("<path d=\"{}\" {style}/>", path.text));
        }
    }

    pub fn words(&mut self, at: Point, style: &str, words: &str) {
        let [x, y] = [at.x, at.y].map(decimal);
        let space = if style.is_empty() { "" } else { " " };
        let words = escape(words);
        self.put(format_args!(
            "<text x=\"{x}\" y=\"{y}\"{space}{style}>{words}</text>"
        ));
    }

    /// Words that run upwards.
    pub fn upward_words(&mut self, at: Point, style: &str, words: &str) {
        let turn = format!(
            "transform=\"rotate(-90 {} {})\"",
            decimal(at.x),
            decimal(at.y)
        );
        self.words(at, &format!("{style} {turn}"), words);
    }

    fn put(&mut self, element: std::fmt::Arguments) {
        writeln!(self.text, "{element}").expect("a string takes all text");
    }
}

/// The parts of one path element. A place is rounded to hundredths before anything is made of it.
#[derive(Default)]
pub struct Path {
    text: String,
}

impl Path {
    /// The triangles of an index list, three numbers of vertices each.
    pub fn of_triangles(numbers: &[u16], at: impl Fn(usize) -> Point) -> Path {
        let mut path = Path::default();
        for corners in numbers.chunks_exact(3) {
            path.triangle([corners[0], corners[1], corners[2]].map(|vertex| at(vertex.into())));
        }
        path
    }

    /// All turn the same way, so that triangles over each other leave no hole.
    pub fn triangle(&mut self, corners: [Point; 3]) {
        let [a, mut b, mut c] = corners.map(|at| [hundredths(at.x), hundredths(at.y)]);
        let step = |from: [i64; 2], to: [i64; 2]| [to[0] - from[0], to[1] - from[1]];
        if turn(step(a, b), step(a, c)) < 0 {
            (b, c) = (c, b);
        }
        let [[ax, ay], [bx, by], [cx, cy]] =
            [a, step(a, b), step(b, c)].map(|place| place.map(of_hundredths));
        write!(self.text, "M{ax} {ay}l{bx} {by} {cx} {cy}z").expect("a string takes all text");
    }

    /// A part without length, which a round line cap shows as a dot.
    pub fn dot(&mut self, at: Point) {
        let [x, y] = [at.x, at.y].map(decimal);
        write!(self.text, "M{x} {y}h0").expect("a string takes all text");
    }
}

/// Above 0 where the second step turns to the right of the first one, as the page is seen.
fn turn(one: [i64; 2], other: [i64; 2]) -> i128 {
    let [[x, y], [u, v]] = [one, other].map(|step| step.map(i128::from));
    x * v - y * u
}

/// At most two decimals.
pub fn decimal(x: f64) -> String {
    of_hundredths(hundredths(x))
}

fn hundredths(x: f64) -> i64 {
    (x * 100.0).round() as i64
}

fn of_hundredths(n: i64) -> String {
    let sign = if n < 0 { "-" } else { "" };
    let (whole, rest) = (n.unsigned_abs() / 100, n.unsigned_abs() % 100);
    match (rest / 10, rest % 10) {
        (0, 0) => format!("{sign}{whole}"),
        (tenths, 0) => format!("{sign}{whole}.{tenths}"),
        _ => format!("{sign}{whole}.{rest:02}"),
    }
}

/// Text for XML. What XML has no place for becomes U+FFFD.
pub fn escape(text: &str) -> String {
    let mut escaped = String::new();
    for letter in text.chars() {
        match letter {
            '&' => escaped.push_str("&amp;"),
            '<' => escaped.push_str("&lt;"),
            '>' => escaped.push_str("&gt;"),
            '"' => escaped.push_str("&quot;"),
            '\'' => escaped.push_str("&apos;"),
            '\u{FFFE}' | '\u{FFFF}' => escaped.push('\u{FFFD}'),
            _ if letter.is_control() => escaped.push('\u{FFFD}'),
            _ => escaped.push(letter),
        }
    }
    escaped
}

#[cfg(test)]
mod tests {
    use super::*;
    use crate::plane::point;

    #[test]
    fn escaped_names() {
        assert_eq!(
            escape("a<b>&\"c\"'d'.bin"),
            "a&lt;b&gt;&amp;&quot;c&quot;&apos;d&apos;.bin"
        );
        assert_eq!(escape("&amp;"), "&amp;amp;");
        assert_eq!(escape("a\u{1}\n\u{FFFE}é"), "a\u{FFFD}\u{FFFD}\u{FFFD}é");
    }

    #[test]
    fn at_most_two_decimals() {
        for (x, text) in [
            (0.0, "0"),
            (-0.001, "0"),
            (1.5, "1.5"),
            (-2.25, "-2.25"),
            (-0.05, "-0.05"),
            (3.999, "4"),
            (10.006, "10.01"),
        ] {
            assert_eq!(decimal(x), text);
        }
    }

    #[test]
    fn a_triangle_goes_by_steps_between_rounded_corners() {
        let mut path = Path::default();
        let [a, b, c] = [(0.004, 1.0), (1.004, 1.0), (1.006, 0.5)].map(|(x, y)| point(x, y));
        path.triangle([a, c, b]);
        assert_eq!(path.text, "M0 1l1.01 -0.5 -0.01 0.5z");
    }

    #[test]
    fn triangles_turn_the_same_way() {
        let [a, b, c] = [(0.0, 0.0), (2.0, 0.0), (0.0, 1.0)].map(|(x, y)| point(x, y));
        let [mut one, mut other] = [Path::default(), Path::default()];
        one.triangle([a, b, c]);
        other.triangle([a, c, b]);
        assert_eq!(one.text, "M0 0l2 0 -2 1z");
        assert_eq!(one.text, other.text);
    }
}
