//! The viewer's small calls: stereo layouts, projections, texture windows, zoom and field of view.

use crate::answer::{Answer, asked, float, float_of, told};
use crate::payload::Bounds;
use crate::raw;
use crate::refusal::Needed;

/// The narrowest vertical field of view, in degrees.
pub const MIN_FOV_DEG: f32 = 10.0;

/// The widest vertical field of view, in degrees.
pub const MAX_FOV_DEG: f32 = 100.0;

/// The vertical angle, in degrees, at which a panorama is life-size.
pub const DEFAULT_FOV_DEG: f32 = 25.76;

/// How a frame holds the pictures of the two eyes.
///
/// ```
/// use hoodsorrel::payload::StereoLayout;
///
/// assert_eq!(StereoLayout::from_raw(2), StereoLayout::SideBySide);
/// assert!(StereoLayout::SideBySide.is_windowed());
/// assert!(!StereoLayout::Anaglyph.is_windowed());
/// ```
#[derive(Clone, Copy, Debug, Default, PartialEq, Eq, Hash)]
#[repr(u32)]
pub enum StereoLayout {
    /// One picture for both.
    #[default]
    Mono = 0,
    /// The left eye's above.
    OverUnder = 1,
    /// The left eye's at the left.
    SideBySide = 2,
    /// Told apart by colour.
    Anaglyph = 3,
    /// In rows by turns.
    RowInterleaved = 4,
}

impl StereoLayout {
    /// The layout of a number, and `Mono` for any other number.
    pub fn from_raw(v: u32) -> StereoLayout {
        match raw::layout_from_raw(v) {
            1 => StereoLayout::OverUnder,
            2 => StereoLayout::SideBySide,
            3 => StereoLayout::Anaglyph,
            4 => StereoLayout::RowInterleaved,
            _ => StereoLayout::Mono,
        }
    }

    /// Whether each eye's picture is a rectangle of the frame.
    pub fn is_windowed(self) -> bool {
        raw::is_windowed(self as u32) == 1
    }
}

/// The two colours of an anaglyph frame, the left eye's first.
///
/// ```
/// use hoodsorrel::payload::AnaglyphPair;
///
/// assert_eq!(AnaglyphPair::from_raw(1), AnaglyphPair::GreenMagenta);
/// assert_eq!(AnaglyphPair::from_raw(9), AnaglyphPair::RedCyan);
/// ```
#[derive(Clone, Copy, Debug, Default, PartialEq, Eq, Hash)]
#[repr(u32)]
pub enum AnaglyphPair {
    /// Red and cyan.
    #[default]
    RedCyan = 0,
    /// Green and magenta.
    GreenMagenta = 1,
    /// Yellow and blue.
    YellowBlue = 2,
}

impl AnaglyphPair {
    /// The pair of a number, and `RedCyan` for any other number.
    pub fn from_raw(v: u32) -> AnaglyphPair {
        match raw::pair_from_raw(v) {
            1 => AnaglyphPair::GreenMagenta,
            2 => AnaglyphPair::YellowBlue,
            _ => AnaglyphPair::RedCyan,
        }
    }
}

/// How much of the sphere a frame covers. A flat one stands in the room as a screen.
///
/// ```
/// use hoodsorrel::payload::{Bounds, Projection};
///
/// let front = Bounds { left: 0.25, right: 0.25, ..Bounds::FULL };
/// assert_eq!(Projection::from_raw(1).bounds(), Some(front));
/// assert_eq!(Projection::Cubemap.bounds(), None);
/// assert!(Projection::Cubemap.is_panoramic());
/// ```
#[derive(Clone, Copy, Debug, Default, PartialEq, Eq, Hash)]
#[repr(u32)]
pub enum Projection {
    /// The whole sphere.
    #[default]
    Equirect360 = 0,
    /// Its front half.
    Equirect180 = 1,
    /// A screen.
    Flat = 2,
    /// A cube's six faces.
    Cubemap = 3,
}

impl Projection {
    /// The projection of a number, and `Equirect360` for any other number.
    pub fn from_raw(v: u32) -> Projection {
        match raw::projection_from_raw(v) {
            1 => Projection::Equirect180,
            2 => Projection::Flat,
            3 => Projection::Cubemap,
            _ => Projection::Equirect360,
        }
    }

    /// Whether the picture goes around the viewer.
    pub fn is_panoramic(self) -> bool {
        raw::is_panoramic(self as u32) == 1
    }

    /// The patch of the sphere that it is short for, if it is one.
    pub fn bounds(self) -> Option<Bounds> {
        let answer = asked(
            |_| Needed::One(0),
            |words| raw::projection_bounds(self as u32, words),
        );
        match answer {
            Ok(Answer {
                count: 4,
                words: [top, bottom, left, right, ..],
            }) => Some(Bounds::from_words([top, bottom, left, right])),
            _ => None,
        }
    }
}

/// One of two eyes.
#[derive(Clone, Copy, Debug, PartialEq, Eq, Hash)]
#[repr(u32)]
pub enum Eye {
    /// The left one.
    Left = 0,
    /// The right one.
    Right = 1,
}

/// A part of the texture: u scale, u offset, v scale, v offset.
pub type UvWindow = [f32; 4];

/// How much of red, green and blue.
pub type ChannelMix = [f32; 3];

/// The part of the texture that an eye samples.
///
/// ```
/// use hoodsorrel::payload::{uv_window, Eye, StereoLayout};
///
/// assert_eq!(uv_window(StereoLayout::OverUnder, Eye::Left), [1.0, 0.0, 0.5, 0.5]);
/// ```
pub fn uv_window(layout: StereoLayout, eye: Eye) -> UvWindow {
    let [a, b, c, d, ..] = told(|words| raw::uv_window(layout as u32, eye as u32, words));
    [a, b, c, d].map(float)
}

/// How much of red, green and blue carries an eye's picture.
///
/// ```
/// use hoodsorrel::payload::{anaglyph_mix, AnaglyphPair, Eye};
///
/// assert_eq!(anaglyph_mix(AnaglyphPair::RedCyan, Eye::Right), [0.0, 0.5, 0.5]);
/// ```
pub fn anaglyph_mix(pair: AnaglyphPair, eye: Eye) -> ChannelMix {
    let [red, green, blue, ..] = told(|words| raw::anaglyph_mix(pair as u32, eye as u32, words));
    [red, green, blue].map(float)
}

/// The vertical field of view, in degrees, at a zoom factor. One that is a NaN, infinite or not above 0 counts as 1.
///
/// ```
/// use hoodsorrel::payload::{fov_for_zoom, DEFAULT_FOV_DEG, MIN_FOV_DEG};
///
/// assert_eq!(fov_for_zoom(1.0), DEFAULT_FOV_DEG);
/// assert_eq!(fov_for_zoom(100.0), MIN_FOV_DEG);
/// assert_eq!(fov_for_zoom(f32::NAN), DEFAULT_FOV_DEG);
/// ```
pub fn fov_for_zoom(zoom: f32) -> f32 {
    float_of(raw::fov_for_zoom(zoom))
}

/// The zoom factor of a vertical field of view in degrees; 1 for one that is a NaN, infinite or not above 0.
///
/// ```
/// assert_eq!(hoodsorrel::payload::zoom_for_fov(12.88), 2.0);
/// ```
pub fn zoom_for_fov(fov: f32) -> f32 {
    float_of(raw::zoom_for_fov(fov))
}
