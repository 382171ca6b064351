//! Document 01's calls, the path and the catalogue: document 01's refusals, then the given Rust; for the path, which it does not have, the plain walk of `path`.
//!
//! What is lent is changed in place, and not at all by a refusal. Marks are what the given Rust records; where it records nothing, the call says what it gave.

use crate::{
    given::{
        hint_edges::{self, LinkDir},
        hint_outline,
        metrics::{Scale, ScaleFlags, ScaledAxisMetrics, WidthMetrics},
        outline::{Contour, Outline, Point, PointMarker},
        recorder::HintsRecorder,
        topo::Axis,
        topo_edges, topo_segments,
    },
    job::{
        Building, Catalogue, CjkStem, Dimension, Direction, Edge, Mark, Points, ScriptGroup,
        Segment, Stems, Table, TopoFlags, Walk, WidthRule,
    },
    joined::Fitted,
    limits::EDGES,
    path::{self, Step},
    ranges,
    refusals::{self, Answer, Refusal},
    weak,
};
use std::mem::take;

/// Call 1.
pub fn compute_mid_pos(min: i32, max: i32) -> i16 {
    topo_segments::compute_mid_pos(min, max)
}

/// Call 2.
pub fn compute_mid_delta(min: i32, max: i32) -> i16 {
    topo_segments::compute_mid_delta(min, max)
}

/// Call 3: `currents` are lent.
///
/// The given Rust is run on both axes, each of an outline of its own, and must answer alike.
pub fn align_weak_points(points: &mut Points) -> Answer<()> {
    refusals::weak(points)?;
    let currents = fitted(points, Dimension::Horizontal);
    assert_eq!(currents, fitted(points, Dimension::Vertical));
    points.currents = currents;
    Ok(())
}

/// The currents that an accepted outline comes to on one axis: by the given Rust in the old range, beyond it by the second writing.
pub(crate) fn fitted(points: &Points, dim: Dimension) -> Vec<i32> {
    if ranges::is_old(points) {
        aligned(points, dim)
    } else {
        weak::aligned(points)
    }
}

/// The currents that the given Rust makes of these points on one axis.
pub(crate) fn aligned(points: &Points, dim: Dimension) -> Vec<i32> {
    let mut outline = outline(points, dim);
    hint_outline::align_weak_points(&mut outline, dim).expect("contours lie within the points");
    let current = |point: &Point| match dim {
        Dimension::Horizontal => point.x,
        Dimension::Vertical => point.y,
    };
    outline.points.iter().map(current).collect()
}

/// The outline that has these points on one axis.
pub(crate) fn outline(points: &Points, dim: Dimension) -> Outline {
    Outline {
        points: (0..points.originals.len())
            .map(|ix| point(points, ix, dim))
            .collect(),
        contours: contours(&points.ends),
        ..Outline::default()
    }
}

/// A point that has its coordinates and its mark on one axis.
fn point(points: &Points, ix: usize, dim: Dimension) -> Point {
    let (original, current) = (points.originals[ix], points.currents[ix]);
    let touched = points.touches[ix] != 0;
    match dim {
        Dimension::Horizontal => Point {
            flags: PointMarker::TOUCHED_X.when(touched),
            ox: original,
            x: current,
            ..Point::default()
        },
        Dimension::Vertical => Point {
            flags: PointMarker::TOUCHED_Y.when(touched),
            oy: original,
            y: current,
            ..Point::default()
        },
    }
}

/// The contours that end at these points.
fn contours(ends: &[u16]) -> Vec<Contour> {
    let mut first = 0;
    let mut contours = Vec::new();
    for last in ends.iter().map(|end| usize::from(*end)) {
        contours.push(Contour { first, last });
        first = last + 1;
    }
    contours
}

/// Call 4: the segments are lent.
pub fn link_segments_cjk(
    segments: &mut Table<Segment>,
    major: Direction,
    units_per_em: i32,
    scale: i32,
) -> Answer<()> {
    refusals::link(segments, units_per_em, scale)?;
    let outline = Outline {
        units_per_em,
        ..Outline::default()
    };
    let mut axis = Axis {
        major_dir: major,
        segments: take(&mut segments.items),
        ..Axis::default()
    };
    topo_segments::link_segments_cjk(&outline, &mut axis, scale);
    segments.items = axis.segments;
    Ok(())
}

/// Call 105: the segments and the edge table are lent.
pub fn compute_edges(
    segments: &mut Table<Segment>,
    edges: &mut Table<Edge>,
    given: &Building,
) -> Answer<()> {
    refusals::build(segments, edges, given)?;
    let mut axis = cleared(&segments.items, given);
    build(&mut axis, &building_metrics(given), given);
    // The given Rust's table has no end, and an edge never leaves it.
    if axis.edges.len() > EDGES {
        return Err(Refusal(5));
    }
    segments.items = axis.segments;
    *edges = Table::of(axis.edges);
    Ok(())
}

/// The axis of these segments without edges; the segments forget their ring and edge indices.
pub(crate) fn cleared(segments: &[Segment], given: &Building) -> Axis {
    let cleared = |segment: &Segment| Segment {
        edge_ix: None,
        edge_next_ix: None,
        ..*segment
    };
    Axis {
        dim: given.dim,
        major_dir: given.major,
        segments: segments.iter().map(cleared).collect(),
        edges: Vec::new(),
    }
}

/// The metrics that building reads.
pub(crate) fn building_metrics(given: &Building) -> ScaledAxisMetrics {
    ScaledAxisMetrics {
        scale: given.scale,
        width_metrics: WidthMetrics {
            edge_distance_threshold: given.distance,
        },
        segment_length_threshold: given.length,
        segment_width_threshold: given.width,
        ..metrics(&WidthRule::Keep(Vec::new()))
    }
}

/// The given Rust's building, on a table that has no end.
pub(crate) fn build(axis: &mut Axis, metrics: &ScaledAxisMetrics, given: &Building) {
    topo_edges::compute_edges(axis, metrics, given.top_to_bottom, 0, given.group);
}

/// Call 106: the edges are lent; hands back the anchor.
pub fn align_edges_to_blues(
    edges: &mut Table<Edge>,
    dim: Dimension,
    group: ScriptGroup,
    rule: &WidthRule,
) -> Answer<Option<usize>> {
    refusals::edges_and_rule(edges, rule, &[])?;
    Ok(on_axis(edges, dim, |axis, recorder| {
        let (metrics, scale) = (metrics(rule), scale(false));
        hint_edges::align_edges_to_blues(axis, &metrics, group, &scale, Some(recorder))
    }))
}

/// Call 107: the edges are lent.
pub fn align_linked_edge(
    edges: &mut Table<Edge>,
    rule: &WidthRule,
    base: u16,
    stem: u16,
) -> Answer<()> {
    refusals::edges_and_rule(edges, rule, &[base, stem])?;
    on_axis(edges, Dimension::Horizontal, |axis, recorder| {
        hint_edges::align_linked_edge(
            axis,
            &metrics(rule),
            ScriptGroup::Default,
            &scale(false),
            base.into(),
            stem.into(),
            Some(recorder),
        );
    });
    Ok(())
}

/// Call 108: the edges are lent.
pub fn align_serif_edge(edges: &mut Table<Edge>, base: u16, serif: u16) -> Answer<()> {
    refusals::edges(edges, &[base, serif])?;
    on_axis(edges, Dimension::Horizontal, |axis, recorder| {
        hint_edges::align_serif_edge(axis, base.into(), serif.into());
        recorder.give(Mark::Serif, [serif.into()]);
    });
    Ok(())
}

/// Call 109: the edges are lent.
pub fn adjust_link(
    edges: &mut Table<Edge>,
    edge: u16,
    next: bool,
    top_to_bottom: bool,
) -> Answer<()> {
    refusals::adjust_link(edges, edge, top_to_bottom)?;
    let dir = if next { LinkDir::Next } else { LinkDir::Prev };
    on_axis(edges, Dimension::Horizontal, |axis, recorder| {
        hint_edges::adjust_link(
            &mut axis.edges,
            axis.dim,
            edge.into(),
            dir,
            top_to_bottom,
            Some(recorder),
        );
    });
    Ok(())
}

/// Call 110: hands back lower and upper.
pub fn latin_remaining_bounds(edges: &Table<Edge>, edge: u16) -> Answer<[Option<usize>; 2]> {
    refusals::edges(edges, &[edge])?;
    Ok(hint_edges::latin_remaining_bounds(
        &edges.items,
        edge.into(),
    ))
}

/// Call 111: the edges are lent; hands back the delta.
pub fn hint_normal_stem_cjk(edges: &mut Table<Edge>, given: &CjkStem) -> Answer<i32> {
    refusals::cjk_stem(edges, given)?;
    let (edge, edge2) = (given.edge.into(), given.edge2.into());
    Ok(on_axis(edges, given.dim, |axis, recorder| {
        recorder.give(Mark::Stem, [edge, edge2]);
        hint_edges::hint_normal_stem_cjk(
            axis,
            &metrics(&given.rule),
            ScriptGroup::Cjk,
            &scale(given.stem_adjust),
            edge,
            edge2,
            given.delta,
        )
    }))
}

/// Call 112: the edges are lent; hands back the count and the anchor.
pub fn align_stem_edges(edges: &mut Table<Edge>, given: &Stems) -> Answer<(usize, Option<usize>)> {
    let fitted = fitted_stems(edges, given)?;
    Ok((fitted.count, fitted.anchor))
}

/// The same, and how often its fallback was taken.
pub fn fitted_stems(edges: &mut Table<Edge>, given: &Stems) -> Answer<Fitted> {
    refusals::stems(edges, given)?;
    Ok(on_axis(edges, given.dim, |axis, recorder| {
        let (count, anchor) = hint_edges::align_stem_edges(
            axis,
            &metrics(&given.rule),
            given.group,
            &scale(given.stem_adjust),
            given.top_to_bottom,
            given.anchor.map(usize::from),
            Some(recorder),
        );
        Fitted {
            count,
            anchor,
            fallbacks: recorder.fallbacks,
        }
    }))
}

/// Call 113: the edges are lent as a table.
pub fn hint_lowercase_m(edges: &mut Table<Edge>, group: ScriptGroup) -> Answer<()> {
    refusals::lowercase_m(edges)?;
    marked_m(&mut edges.items, group);
    Ok(())
}

/// Call 114: the edges are lent as a list.
pub fn hint_lowercase_m_lent(edges: &mut [Edge], group: ScriptGroup) -> Answer<()> {
    refusals::lowercase_m(&Table::of(edges.to_vec()))?;
    marked_m(edges, group);
    Ok(())
}

/// The given Rust's lowercase m, and the marks of what it moved.
fn marked_m(edges: &mut [Edge], group: ScriptGroup) {
    let (third, serifs): (usize, &[usize]) = match edges.len() {
        6 => (4, &[]),
        _ => (9, &[8, 11]),
    };
    // It reads no flags, and where it acts, if by 0, it leaves the third stem done.
    let flags = edges[third].flags;
    edges[third].flags &= !TopoFlags::DONE;
    hint_edges::hint_lowercase_m(edges, group);
    if !edges[third].flags.contains(TopoFlags::DONE) {
        edges[third].flags = flags;
        return;
    }
    let link = edges[third].link_ix.map(usize::from);
    for ix in link.iter().chain(&[third]).chain(serifs) {
        edges[*ix].mark = Mark::LowercaseM;
    }
}

/// Call 15: hands back every step.
pub fn path(walk: &Walk) -> Answer<Vec<Step>> {
    refusals::path(walk)?;
    Ok(path::steps(walk))
}

/// Call 16: hands back the step that the cursor names, or that the path is finished.
pub fn path_step(walk: &Walk, cursor: u32) -> Answer<Option<Step>> {
    let steps = path(walk)?;
    Ok(steps.get(cursor as usize).copied())
}

/// Call 17: currents and answers are lent; each outline is aligned as by call 3.
pub fn align_catalogue(catalogue: &mut Catalogue) -> Answer<()> {
    refusals::catalogue(catalogue)?;
    let mut first = 0;
    for (ix, mut own) in outlines(catalogue).into_iter().enumerate() {
        let answer = align_weak_points(&mut own);
        catalogue.answers[ix] = answer.map_or_else(|refusal| refusal.0 as u8, |()| 0);
        let behind = first + own.currents.len();
        catalogue.shared.currents[first..behind].copy_from_slice(&own.currents);
        first = behind;
    }
    Ok(())
}

/// The outlines of a catalogue whose counts add up, each for itself.
pub fn outlines(catalogue: &Catalogue) -> Vec<Points> {
    let shared = &catalogue.shared;
    let (mut point, mut contour) = (0, 0);
    let mut outlines = Vec::new();
    for (count, contours) in catalogue.point_counts.iter().zip(&catalogue.contour_counts) {
        let points = point..point + usize::from(*count);
        let contours = contour..contour + usize::from(*contours);
        (point, contour) = (points.end, contours.end);
        outlines.push(Points {
            originals: shared.originals[points.clone()].to_vec(),
            currents: shared.currents[points.clone()].to_vec(),
            touches: shared.touches[points].to_vec(),
            ends: shared.ends[contours].to_vec(),
        });
    }
    outlines
}

/// The currents that call 3 makes of these points, for a call with a test of its own right behind 1 and 3.
pub(crate) fn aligned_behind(
    points: &Points,
    test: impl FnOnce() -> Answer<()>,
) -> Answer<Vec<i32>> {
    let mut aligned = points.clone();
    let answer = align_weak_points(&mut aligned);
    if !matches!(answer, Err(Refusal(1 | 3))) {
        test()?;
    }
    answer.map(|()| aligned.currents)
}

/// Runs a part of the given Rust on an axis that holds these edges, and marks them as it was recorded.
pub(crate) fn on_axis<T>(
    edges: &mut Table<Edge>,
    dim: Dimension,
    run: impl FnOnce(&mut Axis, &mut HintsRecorder) -> T,
) -> T {
    let mut axis = Axis {
        dim,
        edges: take(&mut edges.items),
        ..Axis::default()
    };
    let mut recorder = HintsRecorder::default();
    let result = run(&mut axis, &mut recorder);
    recorder.write(&mut axis.edges);
    edges.items = axis.edges;
    result
}

/// Metrics that hold the width rule.
pub(crate) fn metrics(rule: &WidthRule) -> ScaledAxisMetrics {
    ScaledAxisMetrics {
        scale: 0,
        width_metrics: WidthMetrics {
            edge_distance_threshold: 0,
        },
        segment_length_threshold: 0,
        segment_width_threshold: 0,
        width_rule: rule.clone(),
    }
}

/// A scale that holds the flag.
pub(crate) fn scale(stem_adjust: bool) -> Scale {
    Scale {
        flags: ScaleFlags::STEM_ADJUST.when(stem_adjust),
    }
}
