//! Places on the page, and on the planes that it shows.

#[derive(Clone, Copy)]
pub struct Point {
    pub x: f64,
    pub y: f64,
}

pub const fn point(x: f64, y: f64) -> Point {
    Point { x, y }
}

impl Point {
    /// u and v.
    pub fn of_floats(floats: [f32; 2]) -> Point {
        let [u, v] = floats.map(f64::from);
        point(u, v)
    }

    pub fn moved(self, right: f64, down: f64) -> Point {
        Point {
            x: self.x + right,
            y: self.y + down,
        }
    }
}

/// A part of the page.
#[derive(Clone, Copy)]
pub struct Area {
    pub left: f64,
    pub top: f64,
    pub width: f64,
    pub height: f64,
}

/// Where u and v lie on the page: u to the right, v upwards.
#[derive(Clone, Copy)]
pub struct View {
    /// The place of u = v = 0.
    pub origin: Point,
    /// The length of 1 along u and along v.
    pub scale: Point,
}

impl View {
    pub fn at(&self, uv: Point) -> Point {
        Point {
            x: self.origin.x + uv.x * self.scale.x,
            y: self.origin.y - uv.y * self.scale.y,
        }
    }

    /// The unit square.
    pub fn square(&self) -> Area {
        Area {
            left: self.origin.x,
            top: self.origin.y - self.scale.y,
            width: self.scale.x,
            height: self.scale.y,
        }
    }
}

#[cfg(test)]
mod tests {
    use super::*;

    #[test]
    fn v_runs_upwards() {
        let view = View {
            origin: point(10.0, 100.0),
            scale: point(40.0, 20.0),
        };
        let at = view.at(point(0.5, 1.0));
        assert_eq!((at.x, at.y), (30.0, 80.0));
        assert_eq!((view.square().left, view.square().top), (10.0, 80.0));
    }
}
