//! Remembered references, written from request #110 alone: the given Rust keeps no list.
//!
//! The touched points of a contour are listed in their order; a point's two references are its neighbours in that list, whose end is followed by its start.

use crate::{
    calls,
    job::{Points, References},
    refusals::{self, Answer},
};
use std::ops::RangeInclusive;

/// What is known of a point from the touch marks and the contour ends, the first that holds.
#[derive(Copy, Clone, PartialEq, Debug)]
pub enum Known {
    /// It is touched.
    Touched,
    /// It has no contour.
    NoContour,
    /// Its contour has one touched point or none.
    OneOrNone,
    /// The nearest touched points before and behind it around its contour.
    Two(u16, u16),
}

impl Known {
    /// Its numbers before and behind.
    pub fn numbers(self) -> [u16; 2] {
        match self {
            Known::Touched => [65_535; 2],
            Known::NoContour => [65_534; 2],
            Known::OneOrNone => [65_533; 2],
            Known::Two(before, behind) => [before, behind],
        }
    }
}

/// What is known of every point; the contour ends must be good.
pub fn known(touches: &[u8], ends: &[u16]) -> Vec<Known> {
    let is_touched = |ix: &usize| touches[*ix] != 0;
    let mut known = Vec::new();
    while known.len() < touches.len() {
        match contour_of(ends, known.len()) {
            Some(contour) => {
                let touched: Vec<usize> = contour.clone().filter(is_touched).collect();
                known.extend(contour.map(|ix| on_contour(ix, &touched)));
            }
            None if is_touched(&known.len()) => known.push(Known::Touched),
            None => known.push(Known::NoContour),
        }
    }
    known
}

/// What is known of a point of a contour that has these touched points.
fn on_contour(ix: usize, touched: &[usize]) -> Known {
    let count = touched.len();
    let below = touched.partition_point(|other| *other < ix);
    if touched.get(below) == Some(&ix) {
        Known::Touched
    } else if count < 2 {
        Known::OneOrNone
    } else {
        let before = touched[(below + count - 1) % count];
        let behind = touched[below % count];
        Known::Two(before as u16, behind as u16)
    }
}

/// The points of the contour that a point is on, if it is on one.
pub fn contour_of(ends: &[u16], ix: usize) -> Option<RangeInclusive<usize>> {
    let place = ends.partition_point(|end| usize::from(*end) < ix);
    let last = usize::from(*ends.get(place)?);
    let first = place
        .checked_sub(1)
        .map_or(0, |place| usize::from(ends[place]) + 1);
    Some(first..=last)
}

/// The list that says of every point what is known.
pub fn remembered(touches: &[u8], ends: &[u16]) -> References {
    let numbers = known(touches, ends).into_iter().map(Known::numbers);
    let (before, behind) = numbers.map(|[before, behind]| (before, behind)).unzip();
    References { before, behind }
}

/// Call 18: the list is lent.
pub fn remember_references(touches: &[u8], ends: &[u16], list: &mut References) -> Answer<()> {
    refusals::remember(touches, ends, list)?;
    *list = remembered(touches, ends);
    Ok(())
}

/// Call 19: `currents` are lent.
pub fn align_with_references(points: &mut Points, list: &References) -> Answer<()> {
    refusals::as_long_as(points.originals.len(), list)?;
    let matches = || *list == remembered(&points.touches, &points.ends);
    points.currents = calls::aligned_behind(points, || refusals::refuse(9, !matches()))?;
    Ok(())
}
