//! Directions, points and contours, as far as the given Rust needs them.

use std::ops::{BitOr, Range};

/// A direction: right and left are opposite, up and down are opposite.
#[derive(Copy, Clone, PartialEq, Eq, Debug, Default)]
pub enum Direction {
    #[default]
    None,
    Right,
    Left,
    Up,
    Down,
}

impl Direction {
    /// Whether the two are opposite; none is opposite to nothing.
    pub fn is_opposite(self, other: Self) -> bool {
        use Direction::*;
        matches!(
            (self, other),
            (Right, Left) | (Left, Right) | (Up, Down) | (Down, Up)
        )
    }
}

/// An outline's orientation.
#[derive(Copy, Clone, PartialEq, Eq, Debug)]
#[allow(dead_code)]
pub enum Orientation {
    Clockwise,
    CounterClockwise,
}

/// The marks of a point.
#[derive(Copy, Clone, Default)]
pub struct PointMarker(u8);

impl PointMarker {
    /// Touched on the horizontal axis.
    pub const TOUCHED_X: Self = Self(1);
    /// Touched on the vertical axis.
    pub const TOUCHED_Y: Self = Self(2);
    /// Weak: left to the weak points' interpolation.
    pub const WEAK_INTERPOLATION: Self = Self(4);

    /// This mark or none.
    pub fn when(self, touched: bool) -> Self {
        if touched {
            self
        } else {
            Self::default()
        }
    }

    /// Whether any of the other's marks is set here.
    pub fn has_marker(self, other: Self) -> bool {
        self.0 & other.0 != 0
    }

    /// Sets the other's marks.
    pub fn set_marker(&mut self, other: Self) {
        self.0 |= other.0;
    }
}

impl BitOr for PointMarker {
    type Output = Self;

    fn bitor(self, other: Self) -> Self {
        Self(self.0 | other.0)
    }
}

/// A point: coordinates in font units, original and current ones, the scratch `u` and `v`, and the next point around its contour.
#[derive(Copy, Clone, Default)]
pub struct Point {
    pub flags: PointMarker,
    pub fx: i32,
    pub fy: i32,
    pub ox: i32,
    pub oy: i32,
    pub x: i32,
    pub y: i32,
    pub u: i32,
    pub v: i32,
    pub next_ix: u16,
}

impl Point {
    /// The next point around the contour.
    pub fn next(&self) -> usize {
        self.next_ix.into()
    }
}

/// A contour: its first and last point.
pub struct Contour {
    pub first: usize,
    pub last: usize,
}

impl Contour {
    /// The indices of its points.
    pub fn range(&self) -> Range<usize> {
        self.first..self.last + 1
    }
}

/// Points and their contours.
#[derive(Default)]
pub struct Outline {
    pub units_per_em: i32,
    pub points: Vec<Point>,
    pub contours: Vec<Contour>,
}
