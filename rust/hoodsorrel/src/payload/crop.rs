//! A crop of the sphere.

use crate::answer::float;
use crate::raw;

/// A crop: how much of the sphere a frame leaves out on each side.
///
/// ```
/// use hoodsorrel::payload::Bounds;
///
/// assert!(Bounds::FULL.is_usable());
/// assert!(Bounds { top: 0.25, left: 0.5, ..Bounds::FULL }.is_usable());
/// assert!(!Bounds { top: 0.5, bottom: 0.5, ..Bounds::FULL }.is_usable());
/// assert!(!Bounds { right: f32::NAN, ..Bounds::FULL }.is_usable());
/// ```
#[derive(Clone, Copy, Debug, Default, PartialEq)]
pub struct Bounds {
    /// The share of the height above it.
    pub top: f32,
    /// The share of the height below it.
    pub bottom: f32,
    /// The share of the width at its left.
    pub left: f32,
    /// The share of the width at its right.
    pub right: f32,
}

impl Bounds {
    /// The whole sphere.
    pub const FULL: Bounds = Bounds {
        top: 0.0,
        bottom: 0.0,
        left: 0.0,
        right: 0.0,
    };

    /// Whether the crop leaves anything to draw: each side is finite, at least 0 and below 1, and so are the sums of
    /// opposite sides, rounded to f32.
    pub fn is_usable(self) -> bool {
        raw::is_usable(self.sides()) == 1
    }

    /// In the order of the C functions.
    pub(crate) fn sides(self) -> [f32; 4] {
        [self.top, self.bottom, self.left, self.right]
    }

    pub(crate) fn from_words(words: [u64; 4]) -> Bounds {
        let [top, bottom, left, right] = words.map(float);
        Bounds {
            top,
            bottom,
            left,
            right,
        }
    }
}
