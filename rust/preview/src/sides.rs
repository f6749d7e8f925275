//! The three sides from which points in space are seen, and their axes.

use crate::axes::mark;
use crate::colours::{GREY, PALE};
use crate::letters;
use crate::plane::{point, Area, Point, View};
use crate::svg::Svg;
use crate::ticks::{Step, Tick};

/// Room around a side's square: for its name, and for its axes' numbers and names.
pub const LEFT: f64 = 60.0;
pub const RIGHT: f64 = 6.0;
pub const ABOVE: f64 = 24.0;
pub const BELOW: f64 = 32.0;
/// How much larger the shown cube is than what it must hold.
const AROUND: f64 = 1.1;

const AXES: [&str; 3] = ["x", "y", "z"];

pub struct Side {
    name: &'static str,
    /// The axis that runs to the right.
    across: usize,
    /// The axis that runs upwards, or downwards where `turn` is -1.
    along: usize,
    turn: f64,
}

/// For whoever stands at the origin x is right, y is up and -z is ahead. The top is seen with ahead upwards, the side
/// from the left with ahead at the left.
pub const SIDES: [Side; 3] = [
    Side {
        name: "front",
        across: 0,
        along: 1,
        turn: 1.0,
    },
    Side {
        name: "top",
        across: 0,
        along: 2,
        turn: -1.0,
    },
    Side {
        name: "side",
        across: 2,
        along: 1,
        turn: 1.0,
    },
];

impl Side {
    /// A place as it is seen.
    fn seen(&self, place: [f64; 3]) -> Point {
        point(place[self.across], place[self.along])
    }
}

/// The part of space that every side shows: a cube around the origin and all points.
pub struct Room {
    middle: [f64; 3],
    side: f64,
}

impl Room {
    pub fn of(places: impl Iterator<Item = [f64; 3]>) -> Room {
        let (mut low, mut high) = ([0.0; 3], [0.0; 3]);
        for place in places {
            for axis in 0..3 {
                low[axis] = place[axis].min(low[axis]);
                high[axis] = place[axis].max(high[axis]);
            }
        }
        let longest = (0..3)
            .map(|axis| high[axis] - low[axis])
            .fold(0.0, f64::max);
        Room {
            middle: [0, 1, 2].map(|axis: usize| (low[axis] + high[axis]) / 2.0),
            side: AROUND * if longest > 0.0 { longest } else { 2.0 },
        }
    }

    /// Where an axis begins and ends.
    fn ends(&self, axis: usize) -> [f64; 2] {
        [-0.5, 0.5].map(|share| self.middle[axis] + share * self.side)
    }

    /// Round numbers along an axis, with one step for all three.
    fn ticks(&self, axis: usize) -> Vec<Tick> {
        let step = Step::of([0, 1, 2].map(|axis| self.ends(axis)));
        step.ticks(self.ends(axis))
    }
}

/// The square that shows a side.
pub struct Frame<'a> {
    square: Area,
    view: View,
    side: &'a Side,
    room: &'a Room,
}

impl Frame<'_> {
    /// A square with this left upper corner and this side length.
    pub fn new<'a>(corner: Point, length: f64, side: &'a Side, room: &'a Room) -> Frame<'a> {
        let scale = point(length / room.side, side.turn * length / room.side);
        let middle = side.seen(room.middle);
        let centre = corner.moved(length / 2.0, length / 2.0);
        Frame {
            square: Area {
                left: corner.x,
                top: corner.y,
                width: length,
                height: length,
            },
            view: View {
                origin: centre.moved(-middle.x * scale.x, middle.y * scale.y),
                scale,
            },
            side,
            room,
        }
    }

    pub fn at(&self, place: [f64; 3]) -> Point {
        self.view.at(self.side.seen(place))
    }

    /// The square with its name, and the axes with their names and numbers.
    pub fn draw(&self, svg: &mut Svg) {
        let Area { left, top, .. } = self.square;
        svg.words(point(left, top - 9.0), "", self.side.name);
        self.draw_across(svg);
        self.draw_along(svg);
        let style = format!("fill=\"none\" stroke=\"{GREY}\" stroke-width=\"1\"");
        svg.rect(self.square, &style);
    }

    fn draw_across(&self, svg: &mut Svg) {
        let Area {
            left,
            top,
            width,
            height,
        } = self.square;
        let axis = self.side.across;
        for tick in self.room.ticks(axis) {
            let below = point(self.view.at(point(tick.at, 0.0)).x, top + height);
            svg.line(point(below.x, top), below, &line_style(tick.at));
            if let Some(text) = tick.text {
                svg.words(below.moved(0.0, 14.0), &number("middle"), &text);
            }
        }
        let middle = point(left + width / 2.0, top + height + 27.0);
        svg.words(middle, &mark("middle"), AXES[axis]);
    }

    fn draw_along(&self, svg: &mut Svg) {
        let Area {
            left,
            top,
            width,
            height,
        } = self.square;
        let axis = self.side.along;
        let mut widest = 0f64;
        for tick in self.room.ticks(axis) {
            let beside = point(left, self.view.at(point(0.0, tick.at)).y);
            svg.line(beside, point(left + width, beside.y), &line_style(tick.at));
            if let Some(text) = tick.text {
                svg.words(beside.moved(-5.0, 4.0), &number("end"), &text);
                widest = widest.max(letters::width(&text));
            }
        }
        let aside = (widest + 12.0).min(LEFT - 5.0);
        let middle = point(left - aside, top + height / 2.0 + 4.0);
        svg.words(middle, &mark("middle"), AXES[axis]);
    }
}

/// The style of an axis' number.
fn number(anchor: &str) -> String {
    format!("{} font-size=\"11\"", mark(anchor))
}

/// Lines of 0 are darker.
fn line_style(at: f64) -> String {
    let colour = if at == 0.0 { GREY } else { PALE };
    format!("stroke=\"{colour}\" stroke-width=\"0.7\"")
}

#[cfg(test)]
mod tests {
    use super::*;

    fn frames(room: &Room) -> [Frame<'_>; 3] {
        SIDES
            .each_ref()
            .map(|side| Frame::new(point(10.0, 20.0), 110.0, side, room))
    }

    #[test]
    fn ahead_is_up_from_the_top_and_left_from_the_side() {
        let room = Room::of([[1.0, 1.0, 1.0], [-1.0, -1.0, -1.0]].into_iter());
        let [front, top, side] = frames(&room);
        let middle = (65.0, 75.0);
        for (frame, place, (right, down)) in [
            (&front, [1.0, 0.0, 0.0], (50.0, 0.0)),
            (&front, [0.0, 1.0, 0.0], (0.0, -50.0)),
            (&top, [1.0, 0.0, 0.0], (50.0, 0.0)),
            (&top, [0.0, 0.0, -1.0], (0.0, -50.0)),
            (&side, [0.0, 0.0, -1.0], (-50.0, 0.0)),
            (&side, [0.0, 1.0, 0.0], (0.0, -50.0)),
        ] {
            let at = frame.at(place);
            let aside = (at.x - middle.0 - right, at.y - middle.1 - down);
            assert!(aside.0.abs() < 1e-9 && aside.1.abs() < 1e-9, "{place:?}");
        }
    }

    #[test]
    fn every_place_and_the_origin_are_within() {
        let far = f64::from(f32::MAX);
        for places in [
            vec![],
            vec![[0.0; 3]],
            vec![[0.0, 0.0, -1.0]],
            vec![[5.0, 6.0, 7.0], [5.5, 6.0, 7.0]],
            vec![[far, -far, 1e-45]],
            vec![[1e-45, 0.0, 0.0]],
        ] {
            let room = Room::of(places.iter().copied());
            for frame in frames(&room) {
                for place in places.iter().copied().chain([[0.0; 3]]) {
                    let Point { x, y } = frame.at(place);
                    assert!((10.0..=120.0).contains(&x) && (20.0..=130.0).contains(&y));
                }
            }
        }
    }
}
