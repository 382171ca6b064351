//! Call 128: points come to where the edges of their segments are. Without the filter of done edges the given Rust answers; with it, which the Rust has not, the second writing
//! below, from the sentences alone.

use crate::{
    given::{
        hint_outline,
        metrics::{Scale, ScaleFlags},
        outline::{Outline, Point, PointMarker},
        topo::Axis,
    },
    job::{Dimension, Edge, EdgePoints, ScriptGroup, Segment, Table, TopoFlags},
    references::contour_of,
    refusals::{self, Answer},
};

/// A point: where it is, and whether it was visited.
type Visit = (i32, bool);

/// Call 128: currents and touch marks are lent.
pub fn align_edge_points(
    segments: &Table<Segment>,
    edges: &Table<Edge>,
    given: &mut EdgePoints,
) -> Answer<()> {
    refusals::edge_points(segments, edges, given)?;
    let moved = if given.done_alone {
        moved(&segments.items, &edges.items, given)
    } else {
        by_given_rust(&segments.items, &edges.items, given)
    };
    for (ix, (current, visited)) in moved.into_iter().enumerate() {
        given.currents[ix] = current;
        if visited {
            given.touches[ix] = 1;
        }
    }
    Ok(())
}

/// What the given Rust makes of accepted points, on both axes and by every choice of group and flags that asks for the same, which must answer alike.
pub fn by_given_rust(segments: &[Segment], edges: &[Edge], given: &EdgePoints) -> Vec<Visit> {
    use {Dimension::*, ScriptGroup::*};
    const X: ScaleFlags = ScaleFlags::HORIZONTAL_SNAP;
    const Y: ScaleFlags = ScaleFlags::VERTICAL_SNAP;
    let ways: &[(Dimension, ScriptGroup, ScaleFlags)] = if given.snap {
        &[
            (Horizontal, Default, Y),
            (Vertical, Default, X),
            (Horizontal, Cjk, X),
            (Vertical, Cjk, Y),
        ]
    } else {
        &[(Horizontal, Cjk, Y), (Vertical, Cjk, X)]
    };
    let mut answers = ways.iter().map(|(dim, group, flags)| {
        let scale = Scale { flags: *flags };
        on_axis(segments, edges, given, *dim, *group, &scale)
    });
    let first = answers.next().expect("there is a way");
    answers.for_each(|other| assert_eq!(first, other));
    first
}

/// What the given Rust makes of the points on one axis. It reads no touch mark, so that none is set before: those that are then set are of visited points.
fn on_axis(
    segments: &[Segment],
    edges: &[Edge],
    given: &EdgePoints,
    dim: Dimension,
    group: ScriptGroup,
    scale: &Scale,
) -> Vec<Visit> {
    let axis = Axis {
        dim,
        segments: segments.to_vec(),
        edges: edges.to_vec(),
        ..Axis::default()
    };
    let mut outline = Outline {
        points: points(given, dim),
        ..Outline::default()
    };
    hint_outline::align_edge_points(&mut outline, &axis, group, scale)
        .expect("the points of a segment are in the outline");
    let visit = |point: &Point| match dim {
        Dimension::Horizontal => (point.x, point.flags.has_marker(PointMarker::TOUCHED_X)),
        Dimension::Vertical => (point.y, point.flags.has_marker(PointMarker::TOUCHED_Y)),
    };
    outline.points.iter().map(visit).collect()
}

/// The points with their currents on one axis, each with the next one around its contour; a point of no contour has itself.
pub(crate) fn points(given: &EdgePoints, dim: Dimension) -> Vec<Point> {
    let point = |(ix, current): (usize, &i32)| {
        let next_ix = contour_of(&given.ends, ix).map_or(ix, |contour| {
            if ix == *contour.end() {
                *contour.start()
            } else {
                ix + 1
            }
        });
        let (x, y) = match dim {
            Dimension::Horizontal => (*current, 0),
            Dimension::Vertical => (0, *current),
        };
        Point {
            x,
            y,
            next_ix: next_ix as u16,
            ..Point::default()
        }
    };
    given.currents.iter().enumerate().map(point).collect()
}

/// A second time: what becomes of accepted points, segment by segment, each by the points of its walk.
pub fn moved(segments: &[Segment], edges: &[Edge], given: &EdgePoints) -> Vec<Visit> {
    let mut points: Vec<Visit> = given.currents.iter().map(|c| (*c, false)).collect();
    for segment in segments {
        let Some(edge) = segment.edge_ix.map(|ix| &edges[usize::from(ix)]) else {
            continue;
        };
        if given.done_alone && !edge.flags.contains(TopoFlags::DONE) {
            continue;
        }
        for ix in walk(segment, &given.ends) {
            let moved = if given.snap {
                edge.pos
            } else {
                points[ix].0 + edge.pos - edge.opos
            };
            points[ix] = (moved, true);
        }
    }
    points
}

/// The points of a segment: from its first to its last, or to the contour's end and from its start on.
fn walk(segment: &Segment, ends: &[u16]) -> Vec<usize> {
    let (first, last) = (usize::from(segment.first_ix), usize::from(segment.last_ix));
    if first <= last {
        return (first..=last).collect();
    }
    let contour = contour_of(ends, first).expect("the segment is on a contour");
    (first..=*contour.end())
        .chain(*contour.start()..=last)
        .collect()
}
