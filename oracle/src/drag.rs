//! One point dragged, written from request #111 alone: the given Rust aligns whole outlines.

use crate::{
    calls,
    job::Points,
    references::{contour_of, known, Known},
    refusals::{refuse, Answer},
};

/// Call 20: `currents` are lent, and the point's own is already set.
///
/// The whole buffer is aligned, and of that the points alone are taken over that depend on the one dragged.
pub fn drag_point(points: &mut Points, point: u32) -> Answer<()> {
    let point = point as usize;
    let is_touched = || points.touches.get(point).is_some_and(|mark| *mark != 0);
    let aligned = calls::aligned_behind(points, || refuse(3, !is_touched()))?;
    for ix in dependants(points, point) {
        points.currents[ix] = aligned[ix];
    }
    Ok(())
}

/// The points that depend on a touched one: it is a reference of theirs, or the only touched point of their contour.
pub fn dependants(points: &Points, point: usize) -> Vec<usize> {
    let known = known(&points.touches, &points.ends);
    let depends = |ix: &usize| match known[*ix] {
        Known::Touched | Known::NoContour => false,
        Known::OneOrNone => contour_of(&points.ends, *ix) == contour_of(&points.ends, point),
        Known::Two(before, behind) => [before, behind].map(usize::from).contains(&point),
    };
    (0..known.len()).filter(depends).collect()
}
