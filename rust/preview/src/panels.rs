//! Panels of one size and one scale, row by row: one for each mesh.

use crate::plane::{point, Area, Point, View};

/// Room around what a panel shows.
const LEFT: f64 = 22.0;
const RIGHT: f64 = 10.0;
const ABOVE: f64 = 24.0;
const BELOW: f64 = 24.0;

/// The part of the plane that every panel shows.
pub struct Extent {
    low: Point,
    high: Point,
}

impl Extent {
    /// The least one that holds the unit square and all of the points.
    pub fn of(points: impl Iterator<Item = Point>) -> Extent {
        let mut low = point(0.0, 0.0);
        let mut high = point(1.0, 1.0);
        for Point { x, y } in points {
            (low.x, low.y) = (low.x.min(x), low.y.min(y));
            (high.x, high.y) = (high.x.max(x), high.y.max(y));
        }
        Extent { low, high }
    }

    fn width(&self) -> f64 {
        self.high.x - self.low.x
    }

    fn height(&self) -> f64 {
        self.high.y - self.low.y
    }
}

pub struct Panels {
    corner: Point,
    count: usize,
    columns: usize,
    scale: f64,
    extent: Extent,
}

impl Panels {
    /// With as many columns as make the panels largest.
    pub fn new(area: Area, count: usize, extent: Extent) -> Panels {
        let scale = |columns: usize| {
            let width = area.width / columns as f64 - LEFT - RIGHT;
            let height = area.height / count.div_ceil(columns) as f64 - ABOVE - BELOW;
            (width / extent.width()).min(height / extent.height())
        };
        let (mut columns, mut largest) = (1, 0.0);
        for more in 1..=count {
            if scale(more) > largest {
                (columns, largest) = (more, scale(more));
            }
        }
        Panels {
            corner: point(area.left, area.top),
            count,
            columns,
            scale: largest,
            extent,
        }
    }

    /// Where a panel's heading begins.
    pub fn heading(&self, panel: usize) -> Point {
        self.corner_of(panel).moved(LEFT, ABOVE - 10.0)
    }

    pub fn view(&self, panel: usize) -> View {
        let Extent { low, high } = &self.extent;
        let inner = self.corner_of(panel).moved(LEFT, ABOVE);
        View {
            origin: inner.moved(-low.x * self.scale, high.y * self.scale),
            scale: point(self.scale, self.scale),
        }
    }

    /// Where the last row ends.
    pub fn bottom(&self) -> f64 {
        self.corner.y + self.count.div_ceil(self.columns) as f64 * self.height()
    }

    fn corner_of(&self, panel: usize) -> Point {
        let (row, column) = (panel / self.columns, panel % self.columns);
        self.corner
            .moved(column as f64 * self.width(), row as f64 * self.height())
    }

    fn width(&self) -> f64 {
        LEFT + self.extent.width() * self.scale + RIGHT
    }

    fn height(&self) -> f64 {
        ABOVE + self.extent.height() * self.scale + BELOW
    }
}

#[cfg(test)]
mod tests {
    use super::*;

    const AREA: Area = Area {
        left: 10.0,
        top: 20.0,
        width: 600.0,
        height: 400.0,
    };

    fn extent(points: &[(f64, f64)]) -> Extent {
        Extent::of(points.iter().map(|&(x, y)| point(x, y)))
    }

    #[test]
    fn the_extent_holds_the_square_and_the_points() {
        let Extent { low, high } = extent(&[(0.5, -2.0), (3.0, 0.5)]);
        assert_eq!((low.x, low.y, high.x, high.y), (0.0, -2.0, 3.0, 1.0));
    }

    #[test]
    fn panels_stay_within_their_area() {
        for count in [1, 2] {
            for far in [(1.0, 1.0), (40.0, 0.5), (-3.0, 9.0), (f32::MAX.into(), 0.0)] {
                let panels = Panels::new(AREA, count, extent(&[far]));
                assert!(panels.scale > 0.0);
                assert!(panels.bottom() <= AREA.top + AREA.height + 0.01);
                let right = panels.corner_of(panels.columns - 1).x + panels.width();
                assert!(right <= AREA.left + AREA.width + 0.01);
            }
        }
    }

    #[test]
    fn two_panels_stand_where_they_are_largest() {
        let second = |far| {
            let panels = Panels::new(AREA, 2, extent(&[far]));
            let [first, second] = [0, 1].map(|panel| panels.corner_of(panel));
            (second.x > first.x, second.y > first.y)
        };
        let (beside, below) = ((true, false), (false, true));
        assert_eq!(second((1.0, 1.0)), beside);
        assert_eq!(second((40.0, 0.5)), below);
    }

    #[test]
    fn a_view_shows_the_whole_extent() {
        let panels = Panels::new(AREA, 2, extent(&[(-1.0, 4.0)]));
        for panel in [0, 1] {
            let corner = panels.corner_of(panel).moved(LEFT, ABOVE);
            let left_top = panels.view(panel).at(point(-1.0, 4.0));
            assert!((left_top.x - corner.x).abs() < 0.01 && (left_top.y - corner.y).abs() < 0.01);
        }
    }
}
