//! Places in units, and ranges of them.

use crate::{pieces::Area, size::PIXEL};
use khsaemudol::Dimension;
use std::ops::RangeInclusive;

/// Columns and rows in units, from and to.
#[derive(Clone, Debug, PartialEq)]
pub struct Place {
    pub xs: RangeInclusive<i32>,
    pub ys: RangeInclusive<i32>,
}

impl Place {
    /// The place of an area of pixels that are so many units wide.
    pub fn of(area: Area, units: i32) -> Self {
        Self {
            xs: area.left * units..=(area.right + 1) * units,
            ys: area.bottom * units..=(area.top + 1) * units,
        }
    }

    /// Whether two places have a point in common.
    pub fn meets(&self, other: &Self) -> bool {
        common(&self.xs, &other.xs).is_some() && common(&self.ys, &other.ys).is_some()
    }

    /// The place with a pixel more on every side.
    pub fn wider(&self) -> Self {
        let wider = |range: &RangeInclusive<i32>| range.start() - PIXEL..=range.end() + PIXEL;
        Self {
            xs: wider(&self.xs),
            ys: wider(&self.ys),
        }
    }

    /// The place from its lower to its upper ends: that of a gap that is turned has them the other way round.
    pub fn ordered(&self) -> Self {
        let ordered = |range: &RangeInclusive<i32>| {
            *range.start().min(range.end())..=*range.end().max(range.start())
        };
        Self {
            xs: ordered(&self.xs),
            ys: ordered(&self.ys),
        }
    }

    /// The place that an axis' own and the other's coordinates make.
    pub fn on(dimension: Dimension, own: RangeInclusive<i32>, across: RangeInclusive<i32>) -> Self {
        match dimension {
            Dimension::Horizontal => Self {
                xs: own,
                ys: across,
            },
            Dimension::Vertical => Self {
                xs: across,
                ys: own,
            },
        }
    }
}

/// What two ranges have in common.
pub fn common(a: &RangeInclusive<i32>, b: &RangeInclusive<i32>) -> Option<RangeInclusive<i32>> {
    let both = *a.start().max(b.start())..=*a.end().min(b.end());
    (!both.is_empty()).then_some(both)
}

/// From the first to the last of two ranges.
pub fn hull(a: &RangeInclusive<i32>, b: &RangeInclusive<i32>) -> Option<RangeInclusive<i32>> {
    Some(*a.start().min(b.start())..=*a.end().max(b.end()))
}

/// The middle of a range.
pub fn middle(range: &RangeInclusive<i32>) -> i32 {
    (range.start() + range.end()).div_euclid(2)
}

/// A range that is at least a pixel long.
pub fn at_least_a_pixel(range: RangeInclusive<i32>) -> RangeInclusive<i32> {
    let centre = middle(&range);
    *range.start().min(&(centre - PIXEL / 2))..=*range.end().max(&(centre + PIXEL / 2))
}
