//! Call 131: strong points, by the edges around them. The given Rust answers, behind refusals from the issue; the second writing below, from the sentences alone and in 64
//! bits, tells when a point has no place.

use crate::{
    given::{
        hint_outline,
        outline::{Outline, Point, PointMarker},
        topo::Axis,
    },
    job::{Dimension, Edge, Strong, Table},
    limits::POSITION,
    refusals::{self, Answer},
};

/// Call 131: currents and touch marks are lent.
pub fn align_strong_points(edges: &Table<Edge>, given: &mut Strong) -> Answer<()> {
    refusals::strong(edges, given)?;
    let moved = by_given_rust(&edges.items, given);
    write(given, moved);
    Ok(())
}

/// Writes where points came to, and touches those.
fn write(given: &mut Strong, moved: Vec<Option<i32>>) {
    for (ix, place) in moved.into_iter().enumerate() {
        if let Some(place) = place {
            (given.currents[ix], given.touches[ix]) = (place, 1);
        }
    }
}

/// Where the given Rust moves accepted points to, on both axes, which must answer alike.
pub fn by_given_rust(edges: &[Edge], given: &Strong) -> Vec<Option<i32>> {
    let moved = on_axis(edges, given, Dimension::Horizontal);
    assert_eq!(moved, on_axis(edges, given, Dimension::Vertical));
    moved
}

/// Where it moves them on one axis: those that are touched behind it and were not before.
fn on_axis(edges: &[Edge], given: &Strong, dim: Dimension) -> Vec<Option<i32>> {
    let mut axis = Axis {
        dim,
        edges: edges.to_vec(),
        ..Axis::default()
    };
    let mut outline = Outline {
        points: points(given, dim),
        ..Outline::default()
    };
    hint_outline::align_strong_points(&mut outline, &mut axis, None)
        .expect("the edges around a point are in the table");
    let moved = |(ix, point): (usize, &Point)| {
        let (current, touched) = match dim {
            Dimension::Horizontal => (point.x, PointMarker::TOUCHED_X),
            Dimension::Vertical => (point.y, PointMarker::TOUCHED_Y),
        };
        (point.flags.has_marker(touched) && given.touches[ix] == 0).then_some(current)
    };
    outline.points.iter().enumerate().map(moved).collect()
}

/// The points with their coordinates and their marks on one axis.
pub(crate) fn points(given: &Strong, dim: Dimension) -> Vec<Point> {
    (0..given.fonts.len())
        .map(|ix| point(given, ix, dim))
        .collect()
}

/// A point that has its coordinates and its marks on one axis.
fn point(given: &Strong, ix: usize, dim: Dimension) -> Point {
    let touched = given.touches[ix] != 0;
    let weak = PointMarker::WEAK_INTERPOLATION.when(given.weak[ix] != 0);
    let font = given.fonts[ix].into();
    let (original, current) = (given.originals[ix], given.currents[ix]);
    match dim {
        Dimension::Horizontal => Point {
            flags: PointMarker::TOUCHED_X.when(touched) | weak,
            fx: font,
            ox: original,
            x: current,
            ..Point::default()
        },
        Dimension::Vertical => Point {
            flags: PointMarker::TOUCHED_Y.when(touched) | weak,
            fy: font,
            oy: original,
            y: current,
            ..Point::default()
        },
    }
}

/// The most edges that are searched one by one.
const FEW: usize = 8;

/// Two edges are too steep when their positions are so many times as far apart as their font positions, or more.
const STEEP: i64 = 32_768;

/// The pass a second time: for each point where it comes to, or that it stays; none where a point has no place.
pub fn placed(edges: &[Edge], given: &Strong) -> Option<Vec<Option<i32>>> {
    let place = |ix: usize| {
        let strong = given.touches[ix] == 0 && given.weak[ix] == 0;
        if !strong || edges.is_empty() {
            return Some(None);
        }
        let font = given.fonts[ix].into();
        place(edges, font, given.originals[ix].into()).map(Some)
    };
    (0..given.fonts.len()).map(place).collect()
}

/// Where a strong point at a font position and with an original comes to, if it has a place.
fn place(edges: &[Edge], font: i64, original: i64) -> Option<i32> {
    let (first, last) = (edges.first()?, edges.last()?);
    let with = |edge: &Edge| i64::from(edge.pos) + original - i64::from(edge.opos);
    let place = if font <= first.fpos.into() {
        with(first)
    } else if font >= last.fpos.into() {
        with(last)
    } else {
        match found(edges, font) {
            Found::On(ix) => edges[ix].pos.into(),
            Found::Behind(ix) => between(&edges[ix], &edges[ix + 1], font)?,
        }
    };
    let place = i32::try_from(place).ok()?;
    POSITION.contains(&place).then_some(place)
}

/// What the search finds: the edge that a font position is on, or the one that it is behind.
#[derive(Copy, Clone, PartialEq, Debug)]
pub enum Found {
    On(usize),
    Behind(usize),
}

/// The search for a font position behind the first edge and before the last: one by one, or by halving.
pub fn found(edges: &[Edge], font: i64) -> Found {
    if edges.len() > FEW {
        return halved(edges, 0, edges.len(), font);
    }
    let ix = edges.iter().position(|edge| i64::from(edge.fpos) >= font);
    let ix = ix.expect("the last edge is behind it");
    if i64::from(edges[ix].fpos) == font {
        Found::On(ix)
    } else {
        Found::Behind(ix - 1)
    }
}

/// The same among the edges from one up to another.
fn halved(edges: &[Edge], low: usize, high: usize, font: i64) -> Found {
    if low == high {
        return Found::Behind(low - 1);
    }
    let middle = (low + high) / 2;
    let at = i64::from(edges[middle].fpos);
    if font == at {
        Found::On(middle)
    } else if font < at {
        halved(edges, low, middle, font)
    } else {
        halved(edges, middle + 1, high, font)
    }
}

/// Between two edges by the fixed quotient of their positions by their font positions, unless they are too steep.
fn between(low: &Edge, high: &Edge, font: i64) -> Option<i64> {
    let rise = i64::from(high.pos) - i64::from(low.pos);
    let span = i64::from(high.fpos) - i64::from(low.fpos);
    let quotient = nearest(rise * 65_536, span);
    let part = nearest((font - i64::from(low.fpos)) * quotient, 65_536);
    (rise.abs() < STEEP * span).then_some(i64::from(low.pos) + part)
}

/// A quotient by a positive divisor to the nearest, halves away from zero.
fn nearest(dividend: i64, divisor: i64) -> i64 {
    let size = (2 * dividend.abs() + divisor) / (2 * divisor);
    size * dividend.signum()
}
