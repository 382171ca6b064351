//! Call 129: an axis behind building is fitted, edges and points, in one call. The steps are this crate's own calls in a row, behind a test of all that is given; where one of them
//! refuses, nothing lent has changed.

use crate::{
    calls, edge_points,
    gaps::{self, Lost},
    job::{Dimension, Edge, EdgePoints, Fit, Joined, Points, Remaining, Segment, Strong, Table},
    joined,
    limits::M_EDGES,
    refusals::{self, Answer},
    remaining, strong,
};

/// What fitting hands back.
#[derive(Copy, Clone, PartialEq, Default, Debug)]
pub struct Fitted {
    /// What the guard says of the edges.
    pub lost: Lost,
    /// How many edges the stem pass passed over.
    pub passed_over: usize,
    /// The anchor behind remaining edges.
    pub anchor: Option<usize>,
}

/// Call 129: edges, currents and touch marks are lent.
pub fn fit_axis(
    segments: &Table<Segment>,
    edges: &mut Table<Edge>,
    given: &mut Fit,
) -> Answer<Fitted> {
    refusals::fit(segments, edges, given)?;
    let mut placed = edges.clone();
    let (passed_over, anchor) = place_edges(&mut placed, given)?;
    let lost = gaps::lost_gaps(&placed, given.least, given.linked)?;
    let moved = moved_points(segments, &placed, given)?;
    *edges = placed;
    (given.currents, given.touches) = (moved.currents, moved.touches);
    Ok(Fitted {
        lost,
        passed_over,
        anchor,
    })
}

/// The steps on edges: blues and stems, the m, and remaining edges; hands back how many the stem pass passed over, and the anchor.
fn place_edges(edges: &mut Table<Edge>, given: &Fit) -> Answer<(usize, Option<usize>)> {
    let stems = joined::align_blues_and_stems(edges, &blues_and_stems(given))?;
    if given.lowercase_m && given.dim == Dimension::Horizontal && M_EDGES.contains(&edges.count) {
        calls::hint_lowercase_m(edges, given.group)?;
    }
    let mut anchor = stems.anchor;
    if stems.count > 0 || anchor.is_none() {
        let left = Remaining {
            dim: given.dim,
            group: given.group,
            count: stems.count as u16,
            anchor: anchor.map(|ix| ix as u16),
        };
        anchor = remaining::align_remaining_edges(edges, &left)?;
    }
    Ok((stems.count, anchor))
}

/// What blues and stems are told.
fn blues_and_stems(given: &Fit) -> Joined {
    Joined {
        dim: given.dim,
        group: given.group,
        stem_adjust: given.stem_adjust,
        top_to_bottom: false,
        rule: given.rule.clone(),
    }
}

/// The steps on points: those of segments, strong ones, and weak ones.
fn moved_points(segments: &Table<Segment>, edges: &Table<Edge>, given: &Fit) -> Answer<Points> {
    let mut of_segments = EdgePoints {
        snap: given.snap,
        done_alone: given.done_alone,
        currents: given.currents.clone(),
        touches: given.touches.clone(),
        ends: given.ends.clone(),
    };
    edge_points::align_edge_points(segments, edges, &mut of_segments)?;
    let mut strong = Strong {
        fonts: given.fonts.clone(),
        originals: given.originals.clone(),
        currents: of_segments.currents,
        touches: of_segments.touches,
        weak: given.weak.clone(),
    };
    strong::align_strong_points(edges, &mut strong)?;
    let mut all = Points {
        originals: strong.originals,
        currents: strong.currents,
        touches: strong.touches,
        ends: of_segments.ends,
    };
    calls::align_weak_points(&mut all)?;
    Ok(all)
}
