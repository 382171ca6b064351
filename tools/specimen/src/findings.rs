//! The check: does a fitted glyph read as what it was? Pieces and holes of the unfitted outline, filled at 16 times the size, against those of the fitted pixels; and whether a stem
//! or the gap between two of them has a pixel left.

use crate::{
    chain::{extent, name, Fitted},
    fill::{fill, Bitmap},
    pieces::{Count, Parts, OUTSIDE},
    place::Place,
    size::PIXEL,
    stems::lost_stems,
};
use khsaemudol::{Dimension, PathStep};
use std::{collections::BTreeSet, fmt};

/// How many times the size an outline is filled at.
pub const TIMES: i32 = 16;

/// The least part of an outline, in pixels of that size. The fill cuts smaller ones off from the ends of notches and tips.
const LEAST_PART: usize = 16;

/// A glyph's pixels, and what was found.
pub struct Judged {
    /// The pixels of the unfitted outline.
    pub before: Bitmap,
    /// The pixels of the fitted outline.
    pub after: Bitmap,
    /// The pieces and holes of the unfitted outline.
    pub outline: Count,
    /// Those of its pixels.
    pub unfitted: Count,
    /// Those of the fitted pixels.
    pub fitted: Count,
    pub findings: Vec<Finding>,
}

/// What was found, and where.
pub struct Finding {
    pub what: What,
    pub place: Place,
    /// The edges near it that nothing placed.
    pub unplaced: Vec<(Dimension, usize)>,
}

/// What can be found.
#[derive(Clone, Debug, PartialEq, Eq)]
pub enum What {
    CounterCloses,
    CounterOpens,
    CounterDivides,
    CountersJoin,
    GapCloses,
    PieceVanishes,
    PieceAppears,
    PieceBreaks,
    PiecesMerge,
    StemVanishes(Dimension, [usize; 2]),
    StemsMerge(Dimension, [usize; 2]),
    OutlineChanges(Count, Count),
}

impl fmt::Display for What {
    fn fmt(&self, f: &mut fmt::Formatter<'_>) -> fmt::Result {
        f.write_str(match self {
            Self::CounterCloses => "a counter closes",
            Self::CounterOpens => "a counter opens",
            Self::CounterDivides => "a counter is divided",
            Self::CountersJoin => "counters become one",
            Self::GapCloses => "a gap closes to a counter",
            Self::PieceVanishes => "a piece vanishes",
            Self::PieceAppears => "a piece appears",
            Self::PieceBreaks => "a piece breaks",
            Self::PiecesMerge => "pieces merge",
            Self::StemVanishes(axis, [from, to]) => {
                return write!(f, "a stem vanishes: {}, edges {from} and {to}", name(*axis));
            }
            Self::StemsMerge(axis, [from, to]) => {
                return write!(f, "stems merge: {}, edges {from} and {to}", name(*axis));
            }
            Self::OutlineChanges(from, to) => {
                return write!(f, "the outline itself changes: {from}, then {to}");
            }
        })
    }
}

/// Judges a fitted glyph.
pub fn judge(fitted: &Fitted) -> Judged {
    let outline = Shape::of_outline(&fitted.before);
    let fine = Shape::of_outline(&fitted.after);
    let before = Shape::of_pixels(&fitted.before);
    let after = Shape::of_pixels(&fitted.after);
    let finding = |(what, place): (What, Place)| Finding {
        what,
        unplaced: unplaced_at(fitted, &place),
        place,
    };
    let found = found(fitted, &outline, &fine, &after);
    Judged {
        outline: outline.parts.count(),
        unfitted: before.parts.count(),
        fitted: after.parts.count(),
        before: before.bitmap,
        after: after.bitmap,
        findings: found.into_iter().map(finding).collect(),
    }
}

/// What is found of a glyph by its unfitted and its fitted outline, both at 16 times the size, and by its fitted pixels.
fn found(fitted: &Fitted, outline: &Shape, fine: &Shape, coarse: &Shape) -> Vec<(What, Place)> {
    let (was, is) = (outline.parts.count(), fine.parts.count());
    // part by part pixels can be told only from an outline that has the parts that it had
    let mut found = if was == is {
        changes(fine, coarse)
    } else {
        Vec::new()
    };
    let mut stems = lost_stems(fitted, &outline.bitmap, &coarse.bitmap);
    stems.retain(|(_, place)| !found.iter().any(|(_, other)| place.meets(other)));
    found.extend(stems);
    if was != is {
        let all = Place::of(fine.bitmap.area(), PIXEL / TIMES);
        found.push((What::OutlineChanges(was, is), all));
    }
    found
}

/// A bitmap and its parts.
pub struct Shape {
    pub bitmap: Bitmap,
    parts: Parts,
}

impl Shape {
    /// A path as it is: filled at 16 times the size, without specks.
    pub fn of_outline(path: &[PathStep]) -> Self {
        let mut shape = Self::of(fill(path, TIMES));
        // a speck may be in another one: each round has fewer parts
        while let Some(bitmap) = shape.parts.without_specks(&shape.bitmap, LEAST_PART) {
            shape = Self::of(bitmap);
        }
        shape
    }

    /// A path as pixels show it.
    pub fn of_pixels(path: &[PathStep]) -> Self {
        Self::of(fill(path, 1))
    }

    fn of(bitmap: Bitmap) -> Self {
        Self {
            parts: Parts::of(&bitmap),
            bitmap,
        }
    }

    /// Its pieces and holes.
    pub fn count(&self) -> Count {
        self.parts.count()
    }
}

/// Which parts of the fitted outline and of its pixels have a pixel's centre in common.
struct Shared(BTreeSet<(usize, usize)>);

impl Shared {
    /// At a pixel's centre four small pixels meet: the first of the pixel's own colour is its.
    fn of(fine: &Shape, coarse: &Shape) -> Self {
        let at_centre = |x: i32, y: i32| {
            let black = coarse.bitmap.is_black(x, y);
            let (x, y) = (x * TIMES + TIMES / 2, y * TIMES + TIMES / 2);
            let small = [(x, y), (x - 1, y), (x, y - 1), (x - 1, y - 1)];
            let own = small
                .into_iter()
                .find(|(x, y)| fine.bitmap.is_black(*x, *y) == black)?;
            Some(
                fine.bitmap
                    .index(own.0, own.1)
                    .map_or(OUTSIDE, |ix| fine.parts.of[ix]),
            )
        };
        let pair = |((x, y), part): ((i32, i32), &usize)| Some((at_centre(x, y)?, *part));
        Self(
            coarse
                .bitmap
                .pixels()
                .zip(&coarse.parts.of)
                .filter_map(pair)
                .collect(),
        )
    }

    /// The parts of the pixels that a part of the outline came to.
    fn to(&self, fine: usize) -> Vec<usize> {
        self.0
            .iter()
            .filter(|pair| pair.0 == fine)
            .map(|pair| pair.1)
            .collect()
    }

    /// The parts of the outline that a part of the pixels is from.
    fn from(&self, coarse: usize) -> Vec<usize> {
        self.0
            .iter()
            .filter(|pair| pair.1 == coarse)
            .map(|pair| pair.0)
            .collect()
    }
}

/// What pixels make of the fitted outline's pieces and holes, unless each came to one of its own.
pub fn changes(fine: &Shape, coarse: &Shape) -> Vec<(What, Place)> {
    let shared = Shared::of(fine, coarse);
    let small = |part: usize| Place::of(fine.parts.parts[part].area, PIXEL / TIMES);
    let large = |part: usize| Place::of(coarse.parts.parts[part].area, PIXEL);
    let mut found = Vec::new();
    for hole in fine.parts.holes() {
        match shared.to(hole)[..] {
            [] => found.push((What::CounterCloses, small(hole))),
            [OUTSIDE, ..] => found.push((What::CounterOpens, small(hole))),
            [_] => {}
            _ => found.push((What::CounterDivides, small(hole))),
        }
    }
    for hole in coarse.parts.holes() {
        match shared.from(hole)[..] {
            [] | [OUTSIDE, ..] => found.push((What::GapCloses, large(hole))),
            [_] => {}
            _ => found.push((What::CountersJoin, large(hole))),
        }
    }
    for piece in fine.parts.pieces() {
        match shared.to(piece)[..] {
            [] => found.push((What::PieceVanishes, small(piece))),
            [_] => {}
            _ => found.push((What::PieceBreaks, small(piece))),
        }
    }
    for piece in coarse.parts.pieces() {
        match shared.from(piece)[..] {
            [] => found.push((What::PieceAppears, large(piece))),
            [_] => {}
            _ => found.push((What::PiecesMerge, large(piece))),
        }
    }
    found
}

/// The edges that nothing placed and that come within a pixel of a place.
fn unplaced_at(fitted: &Fitted, place: &Place) -> Vec<(Dimension, usize)> {
    let near = place.wider();
    let mut found = Vec::new();
    for (axis, other) in fitted.axes() {
        let is_near = |edge: &usize| {
            let points = axis.points_of(*edge);
            let at = extent(&points, &axis.after).zip(extent(&points, &other.after));
            at.is_some_and(|(own, across)| Place::on(axis.dimension, own, across).meets(&near))
        };
        found.extend(
            axis.unplaced()
                .into_iter()
                .filter(is_near)
                .map(|edge| (axis.dimension, edge)),
        );
    }
    found
}
