//! The given Rust's calls on what is built once, for benchmarks: what is timed is `run` alone.

mod fit;

use crate::{
    calls, edge_points,
    given::{
        hint_edges::{self, LinkDir},
        hint_outline,
        metrics::{Scale, ScaledAxisMetrics},
        outline::{Outline, Point},
        topo::Axis,
        topo_segments,
    },
    job::{
        Building, Dimension, Edge, EdgePoints, Job, Points, ScriptGroup, Segment, Strong, Table,
        Walk, WidthRule,
    },
    path::Step,
    plain, strong,
};
use std::hint::black_box;

/// A job of the given Rust, with what its call changes and what is set back.
pub enum Prepared {
    Middle(fn(i32, i32) -> i16, i32, i32),
    Weak(Outline, Vec<i32>),
    Link(Outline, Axis, Vec<Segment>, i32),
    Build(Axis, Vec<Segment>, ScaledAxisMetrics, Building),
    Edges(Axis, Vec<Edge>, Fitting),
    EdgePoints(Outline, Vec<Point>, Axis, ScriptGroup),
    Strong(Outline, Vec<Point>, Axis, Vec<Edge>),
    Fit(Box<fit::Fitted>),
    Path(Walk, Vec<Step>),
}

/// A call over edges, and what it is told beside them.
pub struct Fitting {
    call: Call,
    metrics: ScaledAxisMetrics,
    group: ScriptGroup,
    scale: Scale,
}

/// The calls over edges, with the edges that they name.
enum Call {
    Blues,
    Linked(usize, usize),
    Serif(usize, usize),
    Adjust(usize, bool, bool),
    Bounds(usize),
    CjkStem(usize, usize, i32),
    Stems(bool, Option<usize>),
    Joined(bool),
    Remaining(usize, Option<usize>),
    Gaps(i32, bool),
    M,
}

impl Prepared {
    /// A job, which must be accepted.
    pub fn new(job: Job) -> Self {
        match job {
            Job::MidPos(min, max) => Self::Middle(topo_segments::compute_mid_pos, min, max),
            Job::MidDelta(min, max) => Self::Middle(topo_segments::compute_mid_delta, min, max),
            Job::Weak(points) | Job::WithReferences(points, _) | Job::Drag(points, _) => {
                Self::weak(points)
            }
            Job::Link(segments, major, units_per_em, scale) => {
                let outline = Outline {
                    units_per_em,
                    ..Outline::default()
                };
                let axis = Axis {
                    major_dir: major,
                    ..Axis::default()
                };
                Self::Link(outline, axis, segments.items, scale)
            }
            Job::Build(segments, _, given) => {
                let axis = calls::cleared(&segments.items, &given);
                let segments = axis.segments.clone();
                Self::Build(axis, segments, calls::building_metrics(&given), given)
            }
            Job::EdgePoints(segments, edges, given) => {
                Self::edge_points(segments.items, edges.items, &given)
            }
            Job::Strong(edges, given) => Self::strong(edges.items, &given),
            Job::Fit(segments, edges, given) => {
                let fitted = fit::Fitted::new(segments.items, edges.items, given);
                Self::Fit(Box::new(fitted))
            }
            Job::Path(walk) | Job::PathStep(walk, _) => {
                let most = walk.xs.len() + 2 * walk.ends.len();
                Self::Path(walk, Vec::with_capacity(most))
            }
            job => Self::edges(job),
        }
    }

    /// Weak points on the vertical axis.
    fn weak(points: Points) -> Self {
        Self::Weak(
            calls::outline(&points, Dimension::Vertical),
            points.currents,
        )
    }

    /// Edge points on the vertical axis, of every edge: the Rust has no filter of done ones.
    fn edge_points(segments: Vec<Segment>, edges: Vec<Edge>, given: &EdgePoints) -> Self {
        assert!(!given.done_alone, "the given Rust moves by every edge");
        let axis = Axis {
            dim: Dimension::Vertical,
            segments,
            edges,
            ..Axis::default()
        };
        let group = if given.snap {
            ScriptGroup::Default
        } else {
            ScriptGroup::Cjk
        };
        let points = edge_points::points(given, axis.dim);
        Self::EdgePoints(Outline::default(), points, axis, group)
    }

    /// Strong points on the vertical axis, whose edges remember quotients.
    fn strong(edges: Vec<Edge>, given: &Strong) -> Self {
        let axis = Axis {
            dim: Dimension::Vertical,
            ..Axis::default()
        };
        let points = strong::points(given, axis.dim);
        Self::Strong(Outline::default(), points, axis, edges)
    }

    /// A job over edges.
    fn edges(job: Job) -> Self {
        use Dimension::Horizontal;
        use ScriptGroup::Default;
        let keep = WidthRule::Keep(Vec::new());
        let (edges, dim, group, rule, stem_adjust, call) = match job {
            Job::Blues(edges, dim, group, rule) => (edges, dim, group, rule, false, Call::Blues),
            Job::Linked(edges, rule, base, stem) => {
                let call = Call::Linked(base.into(), stem.into());
                (edges, Horizontal, Default, rule, false, call)
            }
            Job::Serif(edges, base, serif) => {
                let call = Call::Serif(base.into(), serif.into());
                (edges, Horizontal, Default, keep, false, call)
            }
            Job::Adjust(edges, edge, next, top_to_bottom) => {
                let call = Call::Adjust(edge.into(), next, top_to_bottom);
                (edges, Horizontal, Default, keep, false, call)
            }
            Job::Bounds(edges, edge) => {
                let call = Call::Bounds(edge.into());
                (edges, Horizontal, Default, keep, false, call)
            }
            Job::CjkStem(edges, given) => {
                let call = Call::CjkStem(given.edge.into(), given.edge2.into(), given.delta);
                let group = ScriptGroup::Cjk;
                (edges, given.dim, group, given.rule, given.stem_adjust, call)
            }
            Job::Stems(edges, given) => {
                let call = Call::Stems(given.top_to_bottom, given.anchor.map(usize::from));
                let group = given.group;
                (edges, given.dim, group, given.rule, given.stem_adjust, call)
            }
            Job::Joined(edges, given) => {
                let call = Call::Joined(given.top_to_bottom);
                let group = given.group;
                (edges, given.dim, group, given.rule, given.stem_adjust, call)
            }
            Job::Remaining(edges, given) => {
                let call = Call::Remaining(given.count.into(), given.anchor.map(usize::from));
                (edges, given.dim, given.group, keep, false, call)
            }
            Job::Gaps(edges, least, linked) => {
                let call = Call::Gaps(least, linked);
                (edges, Horizontal, Default, keep, false, call)
            }
            Job::M(edges, group) => (edges, Horizontal, group, keep, false, Call::M),
            Job::MLent(edges, group) => (Table::of(edges), Horizontal, group, keep, false, Call::M),
            _ => unreachable!("the other jobs are not over edges"),
        };
        let axis = Axis {
            dim,
            ..Axis::default()
        };
        let fitting = Fitting {
            call,
            metrics: calls::metrics(&rule),
            group,
            scale: calls::scale(stem_adjust),
        };
        Self::Edges(axis, edges.items, fitting)
    }

    /// Sets anew what the call changes.
    pub fn restore(&mut self) {
        match self {
            Self::Middle(..) => {}
            Self::Weak(outline, currents) => {
                for (point, current) in outline.points.iter_mut().zip(currents) {
                    point.y = *current;
                }
            }
            Self::Link(_, axis, segments, _) => axis.segments.clone_from(segments),
            Self::Build(axis, segments, ..) => {
                axis.segments.clone_from(segments);
                axis.edges.clear();
            }
            Self::Edges(axis, edges, _) => axis.edges.clone_from(edges),
            Self::EdgePoints(outline, points, ..) => outline.points.clone_from(points),
            Self::Strong(outline, points, axis, edges) => {
                outline.points.clone_from(points);
                axis.edges.clone_from(edges);
            }
            Self::Fit(fitted) => fitted.restore(),
            Self::Path(_, steps) => steps.clear(),
        }
    }

    /// Runs the given Rust; for a path and the guard, which it does not have, the plain loop, which makes the whole of a path.
    pub fn run(&mut self) {
        match self {
            Self::Middle(middle, min, max) => {
                black_box(middle(black_box(*min), black_box(*max)));
            }
            Self::Weak(outline, _) => {
                black_box(hint_outline::align_weak_points(
                    outline,
                    Dimension::Vertical,
                ));
            }
            Self::Link(outline, axis, _, scale) => {
                topo_segments::link_segments_cjk(outline, axis, *scale);
            }
            Self::Build(axis, _, metrics, given) => calls::build(axis, metrics, given),
            Self::Edges(axis, _, fitting) => fitting.run(axis),
            Self::EdgePoints(outline, _, axis, group) => {
                let scale = calls::scale(false);
                black_box(hint_outline::align_edge_points(
                    outline, axis, *group, &scale,
                ));
            }
            Self::Strong(outline, _, axis, _) => {
                black_box(hint_outline::align_strong_points(outline, axis, None));
            }
            Self::Fit(fitted) => fitted.run(),
            Self::Path(walk, steps) => plain::steps(walk, steps),
        }
    }
}

impl Fitting {
    /// Runs the given Rust on an axis.
    fn run(&self, axis: &mut Axis) {
        let Self {
            call,
            metrics,
            group,
            scale,
        } = self;
        let group = *group;
        match *call {
            Call::Blues => {
                black_box(hint_edges::align_edges_to_blues(
                    axis, metrics, group, scale, None,
                ));
            }
            Call::Linked(base, stem) => {
                hint_edges::align_linked_edge(axis, metrics, group, scale, base, stem, None);
            }
            Call::Serif(base, serif) => hint_edges::align_serif_edge(axis, base, serif),
            Call::Adjust(edge, next, top_to_bottom) => {
                let dir = if next { LinkDir::Next } else { LinkDir::Prev };
                let edges = &mut axis.edges;
                hint_edges::adjust_link(edges, axis.dim, edge, dir, top_to_bottom, None);
            }
            Call::Bounds(edge) => {
                black_box(hint_edges::latin_remaining_bounds(&axis.edges, edge));
            }
            Call::CjkStem(edge, edge2, delta) => {
                black_box(hint_edges::hint_normal_stem_cjk(
                    axis, metrics, group, scale, edge, edge2, delta,
                ));
            }
            Call::Stems(top_to_bottom, anchor) => {
                black_box(hint_edges::align_stem_edges(
                    axis,
                    metrics,
                    group,
                    scale,
                    top_to_bottom,
                    anchor,
                    None,
                ));
            }
            Call::Joined(top_to_bottom) => {
                let anchor = hint_edges::align_edges_to_blues(axis, metrics, group, scale, None);
                black_box(hint_edges::align_stem_edges(
                    axis,
                    metrics,
                    group,
                    scale,
                    top_to_bottom,
                    anchor,
                    None,
                ));
            }
            Call::Remaining(count, anchor) => {
                hint_edges::align_remaining_edges(axis, group, false, count, anchor, None);
            }
            Call::Gaps(least, linked) => {
                black_box(plain::lost_gaps(&axis.edges, least, linked));
            }
            Call::M => {
                hint_edges::hint_lowercase_m(&mut axis.edges, group);
            }
        }
    }
}
