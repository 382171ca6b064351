//! Weak points a second time, from document 01's sentences and request #109's alone, in 64 bits: what they come to where the given Rust's range ends, and when they are too steep.

use crate::job::Points;
use std::ops::RangeInclusive;

/// The largest magnitude of a quotient: one beyond it is too steep.
const MOST_QUOTIENT: i64 = 2_147_483_647;

/// Where a touched point was and is.
#[derive(Copy, Clone)]
struct Touched {
    original: i64,
    current: i64,
}

impl Touched {
    /// How far it was moved.
    fn delta(self) -> i64 {
        self.current - self.original
    }
}

/// The two references of an untouched point.
struct References {
    first: Touched,
    second: Touched,
}

impl References {
    /// Those of a point between these two: the smaller original is the first, at equal ones that of the point before.
    fn new(before: Touched, behind: Touched) -> Self {
        let (first, second) = if behind.original < before.original {
            (behind, before)
        } else {
            (before, behind)
        };
        Self { first, second }
    }

    /// Whether an original lies strictly between theirs.
    fn enclose(&self, original: i64) -> bool {
        self.first.original < original && original < self.second.original
    }

    /// The fixed quotient of the current span by the original span.
    fn quotient(&self) -> i64 {
        let rise = self.second.current - self.first.current;
        nearest(rise * 65_536, self.second.original - self.first.original)
    }

    /// Whether a point with this original needs a quotient that is too steep.
    fn are_too_steep(&self, original: i64) -> bool {
        self.enclose(original)
            && self.first.current != self.second.current
            && self.quotient().abs() > MOST_QUOTIENT
    }

    /// Where a point with this original comes to.
    fn place(&self, original: i64) -> i64 {
        let Self { first, second } = self;
        if original <= first.original {
            original + first.delta()
        } else if original >= second.original {
            original + second.delta()
        } else if first.current == second.current {
            first.current
        } else {
            first.current + nearest((original - first.original) * self.quotient(), 65_536)
        }
    }
}

/// A quotient by a positive divisor to the nearest, halves away from zero.
fn nearest(dividend: i64, divisor: i64) -> i64 {
    let size = (2 * dividend.abs() + divisor) / (2 * divisor);
    size * dividend.signum()
}

/// What an untouched point hangs on.
enum Held {
    /// No point of its contour is touched.
    Nowhere,
    /// One is.
    At(Touched),
    /// Two are, or more.
    Between(References),
}

/// Whether some untouched point strictly between its references needs a quotient that is too steep.
pub fn is_too_steep(points: &Points) -> bool {
    untouched(points).iter().any(|(ix, held)| match held {
        Held::Between(references) => references.are_too_steep(points.originals[*ix].into()),
        _ => false,
    })
}

/// The currents that an accepted outline comes to.
pub fn aligned(points: &Points) -> Vec<i32> {
    let mut currents = points.currents.clone();
    for (ix, held) in untouched(points) {
        let original = i64::from(points.originals[ix]);
        let place = match held {
            Held::At(touched) if touched.delta() != 0 => original + touched.delta(),
            Held::Between(references) => references.place(original),
            _ => continue,
        };
        currents[ix] = i32::try_from(place).expect("a result has 32 bits");
    }
    currents
}

/// Every untouched point of a contour, and what it hangs on.
fn untouched(points: &Points) -> Vec<(usize, Held)> {
    let mut found = Vec::new();
    for contour in contours(&points.ends) {
        let is_touched = |ix: &usize| points.touches[*ix] != 0;
        let touched: Vec<usize> = contour.clone().filter(is_touched).collect();
        let others = contour.filter(|ix| !is_touched(ix));
        found.extend(others.map(|ix| (ix, held(points, &touched, ix))));
    }
    found
}

/// The points of each contour.
fn contours(ends: &[u16]) -> Vec<RangeInclusive<usize>> {
    let mut first = 0;
    let mut contours = Vec::new();
    for last in ends.iter().map(|end| usize::from(*end)) {
        contours.push(first..=last);
        first = last + 1;
    }
    contours
}

/// What an untouched point hangs on, of its contour's touched ones: the nearest before and behind it around the contour.
fn held(points: &Points, touched: &[usize], ix: usize) -> Held {
    let at = |place: usize| {
        let ix = touched[place % touched.len()];
        Touched {
            original: points.originals[ix].into(),
            current: points.currents[ix].into(),
        }
    };
    let before = touched.partition_point(|other| *other < ix);
    match touched.len() {
        0 => Held::Nowhere,
        1 => Held::At(at(0)),
        count => Held::Between(References::new(at(before + count - 1), at(before))),
    }
}
