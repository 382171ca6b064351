//! An axis behind building, fitted by the given Rust's calls in a row: edges as its `hint_edges` fits them, the guard, which it does not have, by the plain loop, and its points.

use crate::{
    calls, edge_points,
    given::{
        hint_edges, hint_outline,
        metrics::{Scale, ScaledAxisMetrics},
        outline::{Outline, Point},
        topo::Axis,
    },
    job::{Dimension, Edge, EdgePoints, Fit, Points, ScriptGroup, Segment, Strong},
    limits::M_EDGES,
    plain, strong,
};
use std::hint::black_box;

/// An axis and its points, what they are set back to, and what the calls are told.
pub struct Fitted {
    axis: Axis,
    edges: Vec<Edge>,
    outline: Outline,
    points: Vec<Point>,
    metrics: ScaledAxisMetrics,
    scale: Scale,
    given: Fit,
}

impl Fitted {
    /// An axis whose points are moved by every edge: the Rust has no filter of done ones.
    pub fn new(segments: Vec<Segment>, edges: Vec<Edge>, given: Fit) -> Self {
        assert!(!given.done_alone, "the given Rust moves by every edge");
        let axis = Axis {
            dim: given.dim,
            segments,
            ..Axis::default()
        };
        let whole = Points {
            originals: given.originals.clone(),
            currents: given.currents.clone(),
            touches: given.touches.clone(),
            ends: given.ends.clone(),
        };
        Self {
            axis,
            edges,
            outline: calls::outline(&whole, given.dim),
            points: points(&given),
            metrics: calls::metrics(&given.rule),
            scale: calls::scale(given.stem_adjust),
            given,
        }
    }

    /// Sets anew what the calls change.
    pub fn restore(&mut self) {
        self.axis.edges.clone_from(&self.edges);
        self.outline.points.clone_from(&self.points);
    }

    /// Runs the given Rust.
    pub fn run(&mut self) {
        self.place_edges();
        let Fit { least, linked, .. } = self.given;
        black_box(plain::lost_gaps(&self.axis.edges, least, linked));
        self.move_points();
    }

    /// Places the edges: zones, stems, the lowercase m, and what these leave.
    fn place_edges(&mut self) {
        let Self {
            axis,
            metrics,
            scale,
            given,
            ..
        } = self;
        let group = given.group;
        let anchor = hint_edges::align_edges_to_blues(axis, metrics, group, scale, None);
        let (count, anchor) =
            hint_edges::align_stem_edges(axis, metrics, group, scale, false, anchor, None);
        let across = axis.dim == Dimension::Horizontal;
        if given.lowercase_m && across && M_EDGES.contains(&axis.edges.len()) {
            hint_edges::hint_lowercase_m(&mut axis.edges, group);
        }
        if count > 0 || anchor.is_none() {
            hint_edges::align_remaining_edges(axis, group, false, count, anchor, None);
        }
    }

    /// Moves the points: with their edges, strong ones by the edges around them, and weak ones.
    fn move_points(&mut self) {
        let group = if self.given.snap {
            ScriptGroup::Default
        } else {
            ScriptGroup::Cjk
        };
        let scale = calls::scale(false);
        let (outline, axis) = (&mut self.outline, &mut self.axis);
        black_box(hint_outline::align_edge_points(
            outline, axis, group, &scale,
        ));
        black_box(hint_outline::align_strong_points(outline, axis, None));
        black_box(hint_outline::align_weak_points(outline, axis.dim));
    }
}

/// The points with their coordinates and marks on the axis, each with the next one around its contour.
fn points(given: &Fit) -> Vec<Point> {
    let among_edges = Strong {
        fonts: given.fonts.clone(),
        originals: given.originals.clone(),
        currents: given.currents.clone(),
        touches: given.touches.clone(),
        weak: given.weak.clone(),
    };
    let around = EdgePoints {
        snap: given.snap,
        done_alone: given.done_alone,
        currents: given.currents.clone(),
        touches: given.touches.clone(),
        ends: given.ends.clone(),
    };
    let mut points = strong::points(&among_edges, given.dim);
    let contours = edge_points::points(&around, given.dim);
    for (point, on_contour) in points.iter_mut().zip(contours) {
        point.next_ix = on_contour.next_ix;
    }
    points
}

#[cfg(test)]
mod tests {
    use super::*;
    use crate::{
        decode::decode,
        fit,
        generate::{self, Profile, Random},
        job::Job,
        limits::OLD_COORDINATE,
        text,
    };

    /// A made-up axis, if it is one.
    fn axis(random: &mut Random) -> Option<Job> {
        let line = generate::line(129, Profile::Mixed, random);
        decode(&text::parse(&line)?)
    }

    #[test]
    fn leaves_what_the_call_answers() {
        let mut random = Random::new(129);
        let mut answered = 0;
        for _ in 0..20_000 {
            let Some(Job::Fit(segments, mut edges, mut given)) = axis(&mut random) else {
                continue;
            };
            let (old_edges, old) = (edges.clone(), given.clone());
            let done = fit::fit_axis(&segments, &mut edges, &mut given).is_ok();
            let near = |list: &[i32]| list.iter().all(|at| OLD_COORDINATE.contains(at));
            if !done || old.done_alone || !near(&old.originals) || !near(&given.currents) {
                continue;
            }
            let dim = old.dim;
            let mut row = Fitted::new(segments.items, old_edges.items, old);
            row.restore();
            row.run();
            let pos = |edges: &[Edge]| -> Vec<i32> { edges.iter().map(|edge| edge.pos).collect() };
            assert_eq!(pos(&row.axis.edges), pos(&edges.items));
            let current = |point: &Point| match dim {
                Dimension::Horizontal => point.x,
                Dimension::Vertical => point.y,
            };
            let currents: Vec<i32> = row.outline.points.iter().map(current).collect();
            assert_eq!(currents, given.currents);
            answered += 1;
        }
        assert!(answered > 1_000, "{answered}");
    }
}
