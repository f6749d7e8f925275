//! The colours of the page.

pub const INK: &str = "#333";
pub const GREY: &str = "#999";
pub const PALE: &str = "#ccc";
/// Of headings and marks.
pub const DIM: &str = "#666";

/// Chosen one after the other, each as far as can be from all before it, both for people who tell all colours apart and
/// for those who do not tell red and green apart. So the first few differ most. From the eleventh on they are put in an
/// order in which neighbours differ.
const PALETTE: [&str; 40] = [
    "#0064aa", "#f09600", "#6e0000", "#be96fa", "#6e6e00", "#461478", "#50c8a0", "#8c8296",
    "#8c3c64", "#6e78e6", "#3caa78", "#0a5a46", "#4678be", "#b4823c", "#6e4600", "#5a6e8c",
    "#6eaabe", "#3c3246", "#be505a", "#1e96c8", "#64326e", "#aab464", "#008264", "#283ca0",
    "#82a0dc", "#786e46", "#645ac8", "#b496a0", "#6e5a00", "#78468c", "#d28c32", "#b478b4",
    "#6e0032", "#967814", "#1ec8d2", "#b4468c", "#821428", "#e67878", "#828cfa", "#a01e3c",
];

/// How many things have colours of their own.
pub const COLOURS: usize = PALETTE.len();

/// The colour of the thing with this number.
pub fn colour(number: usize) -> &'static str {
    PALETTE[number % COLOURS]
}

#[cfg(test)]
mod tests {
    use super::*;

    type Triple = [f64; 3];

    /// Red, green and blue as they are seen with all cones, without the long ones and without the middle ones, by the
    /// model of Machado, Oliveira and Fernandes (2009).
    const SIGHTS: [[Triple; 3]; 3] = [
        [[1.0, 0.0, 0.0], [0.0, 1.0, 0.0], [0.0, 0.0, 1.0]],
        [
            [0.152286, 1.052583, -0.204868],
            [0.114503, 0.786281, 0.099216],
            [-0.003882, -0.048116, 1.051998],
        ],
        [
            [0.367322, 0.860646, -0.227968],
            [0.280085, 0.672501, 0.047413],
            [-0.011820, 0.042940, 0.968881],
        ],
    ];
    const CONES: [Triple; 3] = [
        [0.4122214708, 0.5363325363, 0.0514459929],
        [0.2119034982, 0.6806995451, 0.1073969566],
        [0.0883024619, 0.2817188376, 0.6299787005],
    ];
    const OKLAB: [Triple; 3] = [
        [0.2104542553, 0.7936177850, -0.0040720468],
        [1.9779984951, -2.4285922050, 0.4505937099],
        [0.0259040371, 0.7827717662, -0.8086757660],
    ];

    fn times(matrix: [Triple; 3], [x, y, z]: Triple) -> Triple {
        matrix.map(|[a, b, c]| a * x + b * y + c * z)
    }

    fn light(colour: &str) -> Triple {
        [1, 3, 5].map(|start| {
            let byte = u8::from_str_radix(&colour[start..start + 2], 16).expect("two digits");
            let share = f64::from(byte) / 255.0;
            if share <= 0.04045 {
                share / 12.92
            } else {
                ((share + 0.055) / 1.055).powf(2.4)
            }
        })
    }

    /// In Oklab, where equal distances look alike.
    fn seen(sight: [Triple; 3], colour: &str) -> Triple {
        let seen = times(sight, light(colour)).map(|part| part.clamp(0.0, 1.0));
        times(OKLAB, times(CONES, seen).map(f64::cbrt))
    }

    fn distance(a: Triple, b: Triple) -> f64 {
        let squares = a.iter().zip(b).map(|(a, b)| (a - b) * (a - b));
        squares.sum::<f64>().sqrt()
    }

    /// The least distance between the colours of these things.
    fn least(sight: [Triple; 3], pairs: impl Iterator<Item = (usize, usize)>) -> f64 {
        let apart = |(a, b)| distance(seen(sight, colour(a)), seen(sight, colour(b)));
        pairs.map(apart).fold(f64::INFINITY, f64::min)
    }

    /// A distance of 0.02 is just seen.
    #[test]
    fn any_two_are_apart_for_every_sight() {
        for sight in SIGHTS {
            for (count, apart) in [(10, 0.1), (24, 0.06), (COLOURS, 0.04)] {
                let pairs = (0..count).flat_map(|a| (0..a).map(move |b| (a, b)));
                assert!(least(sight, pairs) > apart, "{count}");
            }
        }
    }

    #[test]
    fn neighbours_are_further_apart() {
        for sight in SIGHTS {
            assert!(least(sight, (0..COLOURS).map(|a| (a, a + 1))) > 0.12);
        }
    }

    #[test]
    fn all_are_seen_on_white() {
        for number in 0..COLOURS {
            assert!(distance(seen(SIGHTS[0], "#ffffff"), seen(SIGHTS[0], colour(number))) > 0.2);
        }
    }
}
