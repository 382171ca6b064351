//! A glyph through the library's chain, as a gateway calls it: everything that is drawn or judged comes from these answers.

use crate::{
    label::{Axis, Glyph},
    size::PIXEL,
};
use khsaemudol::{
    align_blues_and_stems, align_edge_points, align_remaining_edges, align_strong_points,
    align_weak_points, compute_edges, hint_lowercase_m, link_segments_cjk, lost_gaps, path,
    BluesAndStems, Building, Dimension, Edge, Flags, LostGaps, Mark, Moving, Outline, PathStep,
    Refusal, Segment, Stems, MOST_EDGES,
};
use std::ops::RangeInclusive;

/// The least gap that may not be lost, for the guard: half a pixel.
pub const LEAST_GAP: i32 = PIXEL / 2;

/// The guard looks at edges with a link alone: an open stroke's end inside a stem is no side of a gap.
const LINKED: bool = true;

/// The edge counts that the rule of the lowercase m is for.
const M_EDGES: [usize; 2] = [6, 12];

/// A glyph before and after fitting.
pub struct Fitted {
    pub heights: FittedAxis,
    pub widths: FittedAxis,
    /// The path of the scaled points.
    pub before: Vec<PathStep>,
    /// The path of the fitted points.
    pub after: Vec<PathStep>,
}

impl Fitted {
    /// Each axis with the other one, heights first.
    pub fn axes(&self) -> [(&FittedAxis, &FittedAxis); 2] {
        [(&self.heights, &self.widths), (&self.widths, &self.heights)]
    }
}

/// A refused call: its step, on which axis, and why.
#[derive(Debug)]
pub struct Refused {
    pub step: String,
    pub refusal: Refusal,
}

/// An axis as the library left it.
pub struct FittedAxis {
    pub dimension: Dimension,
    pub segments: Vec<Segment>,
    pub edges: Vec<Edge>,
    /// What the guard found lost.
    pub guard: LostGaps,
    /// Where the points were, in units.
    pub before: Vec<i32>,
    /// Where they came to.
    pub after: Vec<i32>,
    /// What placed each of them.
    pub placing: Vec<Placing>,
    /// The segment that each is on.
    pub segment_of: Vec<Option<usize>>,
    /// The last point of each contour.
    pub ends: Vec<u16>,
}

/// What placed a point on an axis.
#[derive(Clone, Copy, Debug, PartialEq, Eq)]
pub enum Placing {
    /// Its edge.
    Edge,
    /// The edges around it: it is strong.
    Strong,
    /// The touched points of its contour: it is weak.
    Weak,
    /// Nothing: its contour has no touched point, or it has none.
    Nothing,
}

impl Placing {
    /// Whether the point is touched, so that weak ones follow it.
    pub fn is_touched(self) -> bool {
        matches!(self, Self::Edge | Self::Strong)
    }
}

/// The name of an axis.
pub fn name(dimension: Dimension) -> &'static str {
    match dimension {
        Dimension::Horizontal => "widths",
        Dimension::Vertical => "heights",
    }
}

impl FittedAxis {
    /// Whether something placed an edge, as its mark tells: remaining edges of CJK may be placed, and not done.
    pub fn is_placed(&self, edge: usize) -> bool {
        self.edges[edge].mark() != Mark::Nothing
    }

    /// The edges that nothing placed.
    pub fn unplaced(&self) -> Vec<usize> {
        (0..self.edges.len())
            .filter(|edge| !self.is_placed(*edge))
            .collect()
    }

    /// The edge of a point's segment, where there is one.
    pub fn edge_of(&self, point: usize) -> Option<usize> {
        self.segments[self.segment_of[point]?]
            .edge()
            .map(usize::from)
    }

    /// The touch marks of the points.
    pub fn touched(&self) -> Vec<u8> {
        let mark = |placing: &Placing| u8::from(placing.is_touched());
        self.placing.iter().map(mark).collect()
    }

    /// The points of an edge.
    pub fn points_of(&self, edge: usize) -> Vec<usize> {
        (0..self.before.len())
            .filter(|point| self.edge_of(*point) == Some(edge))
            .collect()
    }
}

/// The extent of some points' coordinates.
pub fn extent(points: &[usize], coordinates: &[i32]) -> Option<RangeInclusive<i32>> {
    let of = || points.iter().map(|point| coordinates[*point]);
    Some(of().min()?..=of().max()?)
}

/// Fits a glyph on both axes.
pub fn fit(glyph: &Glyph) -> Result<Fitted, Refused> {
    let heights = fit_axis(&glyph.heights)?;
    let widths = fit_axis(&glyph.widths)?;
    let path = |xs: &[i32], ys: &[i32]| steps(&glyph.on_curve, &glyph.ends, xs, ys);
    let before = path(&widths.before, &heights.before).map_err(at("path before"))?;
    let after = path(&widths.after, &heights.after).map_err(at("path"))?;
    Ok(Fitted {
        heights,
        widths,
        before,
        after,
    })
}

/// The path of a glyph that is not fitted.
pub fn unfitted(glyph: &Glyph) -> Result<Vec<PathStep>, Refusal> {
    let (xs, ys) = (&glyph.widths.originals, &glyph.heights.originals);
    steps(&glyph.on_curve, &glyph.ends, xs, ys)
}

/// A refusal with its step.
fn at(step: &str) -> impl Fn(Refusal) -> Refused + '_ {
    move |refusal| Refused {
        step: step.into(),
        refusal,
    }
}

/// A refusal with its step on an axis.
fn on<'a>(axis: &'a Axis, step: &'a str) -> impl Fn(Refusal) -> Refused + 'a {
    move |refusal| at(&format!("{step}, {}", name(axis.building.dimension)))(refusal)
}

/// Fits an axis, from its segments to its points.
fn fit_axis(axis: &Axis) -> Result<FittedAxis, Refused> {
    let building = &axis.building;
    let mut segments = axis.segments.clone();
    if let Some(units_per_em) = axis.linked_by {
        link_segments_cjk(&mut segments, building.major, units_per_em, building.scale)
            .map_err(on(axis, "linking"))?;
    }
    let mut room = [Edge::default(); MOST_EDGES];
    let edges = compute_edges(&mut segments, &mut room, building).map_err(on(axis, "building"))?;
    give_zones(axis, edges);
    let given = BluesAndStems {
        dimension: building.dimension,
        group: building.group,
        stem_adjust: axis.stem_adjust,
        order: building.order,
        rule: axis.rule(),
    };
    let stems = align_blues_and_stems(edges, &given).map_err(on(axis, "blues and stems"))?;
    if axis.is_m && M_EDGES.contains(&edges.len()) {
        hint_lowercase_m(edges, building.group).map_err(on(axis, "lowercase m"))?;
    }
    place_remaining(building, edges, stems).map_err(on(axis, "remaining edges"))?;
    let guard = lost_gaps(edges, LEAST_GAP, LINKED).map_err(on(axis, "guard"))?;
    let (after, placing) = align_points(axis, &segments, edges)?;
    Ok(FittedAxis {
        dimension: building.dimension,
        edges: edges.to_vec(),
        segments,
        guard,
        before: axis.originals.clone(),
        after,
        placing,
        segment_of: axis.segment_of.clone(),
        ends: axis.ends.clone(),
    })
}

/// Gives edges their zones.
fn give_zones(axis: &Axis, edges: &mut [Edge]) {
    for edge in edges {
        let Some(zone) = axis.zones.iter().find(|zone| zone.has(edge)) else {
            continue;
        };
        edge.set_blue(Some(zone.fitted));
        if zone.is_neutral {
            edge.set_flags(edge.flags() | Flags::NEUTRAL);
        }
    }
}

/// Places the edges that stems have left, where some were passed over or there is no anchor: else the Rust does not ask for them.
fn place_remaining(building: &Building, edges: &mut [Edge], stems: Stems) -> Result<(), Refusal> {
    if stems.passed_over > 0 || stems.anchor.is_none() {
        align_remaining_edges(edges, building.dimension, building.group, stems)?;
    }
    Ok(())
}

/// Moves the points of segments with their edges, strong ones by the edges around them, and the others behind these; tells what placed each.
fn align_points(
    axis: &Axis,
    segments: &[Segment],
    edges: &[Edge],
) -> Result<(Vec<i32>, Vec<Placing>), Refused> {
    let mut currents = axis.originals.clone();
    let mut touched = vec![0; currents.len()];
    let moving = Moving {
        snap: true,
        done_alone: false,
    };
    align_edge_points(
        segments,
        edges,
        moving,
        &mut currents,
        &mut touched,
        &axis.ends,
    )
    .map_err(on(axis, "edge points"))?;
    let with_edges = touched.clone();
    align_strong_points(
        edges,
        &axis.designs,
        &axis.originals,
        &mut currents,
        &mut touched,
        &axis.weak,
    )
    .map_err(on(axis, "strong points"))?;
    align_weak_points(&axis.originals, &mut currents, &touched, &axis.ends)
        .map_err(on(axis, "weak points"))?;
    Ok((currents, placings(&with_edges, &touched, &axis.ends)))
}

/// What placed each point, by the touch marks that edges left, and by those of its contour that strong points left.
fn placings(with_edges: &[u8], touched: &[u8], ends: &[u16]) -> Vec<Placing> {
    let mut placings = vec![Placing::Nothing; touched.len()];
    let mut first = 0;
    for end in ends.iter().map(|end| usize::from(*end)) {
        let any = touched[first..=end].contains(&1);
        for point in first..=end {
            placings[point] = match (with_edges[point], touched[point], any) {
                (1, ..) => Placing::Edge,
                (_, 1, _) => Placing::Strong,
                (.., true) => Placing::Weak,
                _ => Placing::Nothing,
            };
        }
        first = end + 1;
    }
    placings
}

/// The path of points at these coordinates, with their on-curve marks and contour ends.
pub fn steps(marks: &[u8], ends: &[u16], xs: &[i32], ys: &[i32]) -> Result<Vec<PathStep>, Refusal> {
    let outline = Outline {
        xs,
        ys,
        marks,
        ends,
    };
    let mut kinds = vec![0; outline.most_steps()];
    let mut places = vec![0.0; 4 * outline.most_steps()];
    Ok(path(&outline, &mut kinds, &mut places)?.collect())
}
