//! Round numbers along axes of one scale.

use std::ops::RangeInclusive;

use crate::numbers::minus;

/// A number, with its text where there is room for it.
pub struct Tick {
    pub at: f64,
    pub text: Option<String>,
}

/// 1, 2 or 5 times a power of ten.
pub struct Step {
    factor: i64,
    power: i32,
}

impl Step {
    /// The largest one of which each axis, from where it begins to where it ends, has 0 and another multiple. The axes
    /// have one length.
    pub fn of(axes: [[f64; 2]; 3]) -> Step {
        let [low, high] = axes[0];
        let highest = (high - low).log10().floor() as i32;
        let steps = [(5, 0), (2, 0), (1, 0), (5, 1), (2, 1)].map(|(factor, down)| Step {
            factor,
            power: highest - down,
        });
        let enough = |step: &Step| axes.iter().all(|&ends| step.multiples(ends).count() > 1);
        steps.into_iter().find(enough).unwrap_or(Step {
            factor: 1,
            power: highest - 1,
        })
    }

    /// Its multiples along an axis. Where there are more than three, every other one has a text.
    pub fn ticks(&self, ends: [f64; 2]) -> Vec<Tick> {
        let numbers = self.multiples(ends);
        let every = if numbers.clone().count() > 3 { 2 } else { 1 };
        let tick = |number: i64| Tick {
            at: number as f64 * self.size(),
            text: (number % every == 0).then(|| text(number * self.factor, self.power)),
        };
        numbers.map(tick).collect()
    }

    fn size(&self) -> f64 {
        self.factor as f64 * 10f64.powi(self.power)
    }

    /// The whole numbers whose multiples of the step lie between these.
    fn multiples(&self, [low, high]: [f64; 2]) -> RangeInclusive<i64> {
        (low / self.size()).ceil() as i64..=(high / self.size()).floor() as i64
    }
}

/// A whole number times a power of ten, in few letters.
fn text(number: i64, power: i32) -> String {
    let text = match power {
        _ if number == 0 => "0".to_string(),
        0..=3 => (number * 10i64.pow(power as u32)).to_string(),
        _ if number % 10 == 0 => return text(number / 10, power + 1),
        -3..=-1 => format!("{:.*}", -power as usize, number as f64 * 10f64.powi(power)),
        _ => format!("{number}e{power}"),
    };
    minus(&text)
}

#[cfg(test)]
mod tests {
    use super::*;

    fn texts(low: f64, high: f64) -> Vec<String> {
        let ticks = Step::of([[low, high]; 3]).ticks([low, high]);
        ticks.into_iter().filter_map(|tick| tick.text).collect()
    }

    #[test]
    fn round_numbers() {
        assert_eq!(texts(-1.1, 1.1), ["\u{2212}1", "0", "1"]);
        assert_eq!(texts(-0.3, 0.8), ["0", "0.5"]);
        assert_eq!(texts(-0.0044, 0.0038), ["\u{2212}0.004", "0"]);
        assert_eq!(texts(-4.9, 9.9), ["0", "5"]);
        assert_eq!(texts(-7000.0, 100.0), ["\u{2212}5000", "0"]);
        assert_eq!(texts(-2e38, 1e38), ["\u{2212}2e38", "0"]);
        assert_eq!(texts(0.0, 2.5e-45), ["0", "2e\u{2212}45"]);
    }

    #[test]
    fn in_few_letters() {
        for (number, power, letters) in [
            (20, 4, "2e5"),
            (20, 3, "20000"),
            (-10, -1, "\u{2212}1"),
            (5, -3, "0.005"),
            (10, -4, "0.001"),
            (5, -4, "5e\u{2212}4"),
        ] {
            assert_eq!(text(number, power), letters);
        }
    }

    #[test]
    fn axes_of_one_scale_have_one_step() {
        let step = Step::of([[-1.1, 1.1], [-1.1, 1.1], [-1.6, 0.6]]);
        let ticks = |ends| step.ticks(ends).into_iter().map(|tick| tick.at);
        assert!(ticks([-1.1, 1.1]).eq([-1.0, 0.0, 1.0]));
        assert!(ticks([-1.6, 0.6]).eq([-1.0, 0.0]));
    }

    #[test]
    fn few_and_within() {
        for power in -45..=38 {
            for ends in [
                [-1.0, 1.0],
                [-0.01, 3.7],
                [-9.9, 0.2],
                [-4.9, 9.9],
                [-4.4, 3.8],
            ] {
                let [low, high] = ends.map(|x: f64| x * 10f64.powi(power));
                let ticks = Step::of([[low, high]; 3]).ticks([low, high]);
                assert!(ticks.iter().all(|tick| low <= tick.at && tick.at <= high));
                let texts = ticks.into_iter().filter(|tick| tick.text.is_some());
                assert!((2..=3).contains(&texts.count()));
            }
        }
    }
}
