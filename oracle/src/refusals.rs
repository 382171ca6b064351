//! Document 01's five refusals, written from its table alone, and those of document 02's calls, from the requests.
//!
//! One function per call tests in the document's order; each test stands in a function of its own.

use crate::{
    given::metrics::fixed_mul,
    job::{
        Building, Catalogue, CjkStem, Dimension, Edge, EdgePoints, Fit, Joined, Points, References,
        Remaining, ScriptGroup, Segment, Stems, Strong, Table, TopoFlags, Walk, WidthRule,
    },
    limits::*,
    mend::is_sound,
    remaining, strong, weak,
};
use std::collections::BTreeSet;

/// A refusal, by its number.
#[derive(Copy, Clone, PartialEq, Eq, Debug)]
pub struct Refusal(pub i32);

/// What a call answers: done, with what it hands back, or refused.
pub type Answer<T> = Result<T, Refusal>;

/// Refuses by this number when the fault is there.
pub fn refuse(number: i32, fault: bool) -> Answer<()> {
    if fault {
        Err(Refusal(number))
    } else {
        Ok(())
    }
}

/// Weak points.
pub fn weak(points: &Points) -> Answer<()> {
    outline(points)?;
    refuse(8, weak::is_too_steep(points))
}

/// Weak points, but for refusal 8.
pub fn outline(points: &Points) -> Answer<()> {
    let Points {
        originals,
        currents,
        touches,
        ends,
    } = points;
    let count = originals.len();
    refuse(
        1,
        count > POINTS || currents.len() != count || touches.len() != count,
    )?;
    refuse(3, !are_contour_ends(ends, count))?;
    refuse(
        4,
        originals
            .iter()
            .chain(currents)
            .any(|c| !COORDINATE.contains(c)),
    )
}

/// Writing a frame into a line of so many places.
pub fn write_frame(points: &Points, room: usize) -> Answer<()> {
    let Points {
        originals,
        currents,
        touches,
        ends,
    } = points;
    let count = originals.len();
    refuse(
        1,
        currents.len() != count
            || touches.len() != count
            || count > FRAME_BYTE
            || ends.len() > FRAME_BYTE
            || room < frame_digits(count, ends.len()),
    )?;
    refuse(3, ends.iter().any(|end| usize::from(*end) > FRAME_BYTE))?;
    refuse(
        4,
        originals
            .iter()
            .chain(currents)
            .any(|c| !FRAME_NUMBER.contains(c)),
    )
}

/// The digits of the longest frame: 3,066.
pub const FRAME_DIGITS: usize = frame_digits(FRAME_BYTE, FRAME_BYTE);

/// The digits of a frame of so many points and contours: two for each byte.
pub const fn frame_digits(points: usize, contours: usize) -> usize {
    2 * (3 + 5 * points + contours)
}

/// CJK linking.
pub fn link(segments: &Table<Segment>, units_per_em: i32, scale: i32) -> Answer<()> {
    refuse(1, segments.count > SEGMENTS)?;
    refuse(
        2,
        !UNITS_PER_EM.contains(&units_per_em) || !SCALE.contains(&scale),
    )?;
    let indices = |s: &Segment| [s.link_ix, s.serif_ix, s.edge_next_ix];
    refuse(3, names_beyond(segments, indices))?;
    refuse(4, !segments.items.iter().all(measures_fit))
}

/// Building, but for refusal 5: that shows while the edges are built.
pub fn build(segments: &Table<Segment>, edges: &Table<Edge>, given: &Building) -> Answer<()> {
    refuse(1, segments.count > SEGMENTS || edges.count > EDGES)?;
    bottom_to_top(given.top_to_bottom)?;
    let thresholds = [given.distance, given.length, given.width];
    refuse(
        2,
        !SCALE.contains(&given.scale) || thresholds.iter().any(|t| !MEASURE.contains(t)),
    )?;
    refuse(3, names_beyond(segments, |s| [s.link_ix, s.serif_ix]))?;
    let product_fits = |s: &Segment| COORDINATE.contains(&fixed_mul(s.pos.into(), given.scale));
    refuse(
        4,
        !segments
            .items
            .iter()
            .all(|s| measures_fit(s) && product_fits(s)),
    )
}

/// Any call on a table of edges that names these edges.
pub fn edges(edges: &Table<Edge>, named: &[u16]) -> Answer<()> {
    refuse(1, edges.count > EDGES)?;
    edge_indices(edges, named)?;
    refuse(4, !edges.items.iter().all(edge_fits))
}

/// Any call on a table of edges with a width rule.
pub fn edges_and_rule(table: &Table<Edge>, rule: &WidthRule, named: &[u16]) -> Answer<()> {
    refuse(1, table.count > EDGES)?;
    refuse(2, !is_rule(rule))?;
    edges(table, named)
}

/// The CJK stem.
pub fn cjk_stem(edges: &Table<Edge>, given: &CjkStem) -> Answer<()> {
    edges_and_rule(edges, &given.rule, &[given.edge, given.edge2])?;
    refuse(4, !DELTA.contains(&given.delta))
}

/// `adjust_link`.
pub fn adjust_link(table: &Table<Edge>, edge: u16, top_to_bottom: bool) -> Answer<()> {
    refuse(1, table.count > EDGES)?;
    bottom_to_top(top_to_bottom)?;
    edges(table, &[edge])
}

/// The stem pass.
pub fn stems(edges: &Table<Edge>, given: &Stems) -> Answer<()> {
    refuse(1, edges.count > EDGES)?;
    bottom_to_top(given.top_to_bottom)?;
    edges_and_rule(edges, &given.rule, given.anchor.as_slice())
}

/// Blues and stems in one call.
pub fn joined(table: &Table<Edge>, given: &Joined) -> Answer<()> {
    refuse(1, table.count > EDGES)?;
    bottom_to_top(given.top_to_bottom)?;
    let skipped = has_skipped_blue(table, given.dim, given.group);
    refuse(2, !is_rule(&given.rule) || skipped)?;
    edges(table, &[])
}

/// Whether some edge has a blue on the axis whose blues are skipped: the default group's horizontal one.
fn has_skipped_blue(table: &Table<Edge>, dim: Dimension, group: ScriptGroup) -> bool {
    group == ScriptGroup::Default
        && dim == Dimension::Horizontal
        && table.items.iter().any(|edge| edge.blue_edge.is_some())
}

/// Remaining edges: the stem pass' refusals, but for those of numbers that the call has not, and behind them a position that is beyond.
pub fn remaining(table: &Table<Edge>, given: &Remaining) -> Answer<()> {
    edges(table, given.anchor.as_slice())?;
    refuse(8, remaining::placed(&table.items, given).is_none())
}

/// The lowercase m.
pub fn lowercase_m(table: &Table<Edge>) -> Answer<()> {
    refuse(1, table.count > EDGES)?;
    refuse(2, !M_EDGES.contains(&table.count))?;
    edges(table, &[])
}

/// The guard.
pub fn lost_gaps(table: &Table<Edge>, least: i32) -> Answer<()> {
    refuse(1, table.count > EDGES)?;
    refuse(2, !LEAST.contains(&least))?;
    edges(table, &[])
}

/// The path.
pub fn path(walk: &Walk) -> Answer<()> {
    let Walk {
        xs,
        ys,
        marks,
        ends,
    } = walk;
    let count = xs.len();
    refuse(
        1,
        count > POINTS || ys.len() != count || marks.len() != count,
    )?;
    refuse(3, !are_contour_ends(ends, count))?;
    refuse(4, xs.iter().chain(ys).any(|c| !RESULT.contains(c)))
}

/// What the display shows: the lists, how many times they are magnified, the contour ends, and every coordinate, magnified.
pub fn shown(walk: &Walk, magnify: i32) -> Answer<()> {
    let Walk {
        xs,
        ys,
        marks,
        ends,
    } = walk;
    let count = xs.len();
    refuse(
        1,
        count > POINTS || ys.len() != count || marks.len() != count,
    )?;
    refuse(2, !MAGNIFY.contains(&magnify))?;
    refuse(3, !are_contour_ends(ends, count))?;
    let fits = |c: &i32| {
        c.checked_mul(magnify)
            .is_some_and(|c| COORDINATE.contains(&c))
    };
    refuse(4, !xs.iter().chain(ys).all(fits))
}

/// The catalogue as a whole; each outline has its own refusals.
pub fn catalogue(catalogue: &Catalogue) -> Answer<()> {
    let shared = &catalogue.shared;
    let points = sum(&catalogue.point_counts);
    let outlines = catalogue.point_counts.len();
    refuse(
        1,
        shared.originals.len() != points
            || shared.currents.len() != points
            || shared.touches.len() != points
            || shared.ends.len() != sum(&catalogue.contour_counts)
            || catalogue.contour_counts.len() != outlines
            || catalogue.answers.len() != outlines,
    )
}

/// Remembering references.
pub fn remember(touches: &[u8], ends: &[u16], list: &References) -> Answer<()> {
    let count = touches.len();
    refuse(1, count > POINTS)?;
    as_long_as(count, list)?;
    refuse(3, !are_contour_ends(ends, count))
}

/// Refusal 1: a list of another length than the outline that it stands beside.
pub fn as_long_as(count: usize, list: &References) -> Answer<()> {
    refuse(1, list.before.len() != count || list.behind.len() != count)
}

/// What counts add up to.
fn sum(counts: &[u16]) -> usize {
    counts.iter().map(|count| usize::from(*count)).sum()
}

/// Turning an axis over: the indices into both of its tables are tested.
pub fn turn_over(segments: &Table<Segment>, edges: &Table<Edge>) -> Answer<()> {
    both_fit(segments, edges)?;
    indices_of_both(segments, edges)?;
    numbers_of_both(segments, edges)
}

/// Edge points: the axis as turning over tests it, the points, and the walks of the segments that have an edge.
pub fn edge_points(
    segments: &Table<Segment>,
    edges: &Table<Edge>,
    given: &EdgePoints,
) -> Answer<()> {
    let count = given.currents.len();
    both_fit(segments, edges)?;
    refuse(1, count > POINTS || given.touches.len() != count)?;
    refuse(3, !are_contour_ends(&given.ends, count))?;
    indices_of_both(segments, edges)?;
    refuse(3, has_stray(segments, &given.ends))?;
    refuse(4, given.currents.iter().any(|c| !COORDINATE.contains(c)))?;
    numbers_of_both(segments, edges)?;
    let too_far = |edge: &Edge| !COORDINATE.contains(&edge.pos);
    refuse(4, moving_edges(segments, edges, given).any(too_far))
}

/// Fitting an axis: all that is given, as the steps test it, in front of the first.
pub fn fit(segments: &Table<Segment>, edges: &Table<Edge>, given: &Fit) -> Answer<()> {
    let count = given.fonts.len();
    let lengths = [
        given.originals.len(),
        given.currents.len(),
        given.touches.len(),
        given.weak.len(),
    ];
    both_fit(segments, edges)?;
    refuse(1, count > POINTS || lengths.iter().any(|len| *len != count))?;
    let numbers = is_rule(&given.rule) && LEAST.contains(&given.least);
    let skipped = has_skipped_blue(edges, given.dim, given.group);
    refuse(2, !numbers || skipped)?;
    refuse(3, !are_contour_ends(&given.ends, count))?;
    indices_of_both(segments, edges)?;
    refuse(3, has_stray(segments, &given.ends))?;
    numbers_of_both(segments, edges)?;
    let mut coordinates = given.originals.iter().chain(&given.currents);
    refuse(4, coordinates.any(|c| !COORDINATE.contains(c)))
}

/// Whether some segment that has an edge does not go from a point to one of the same contour.
fn has_stray(segments: &Table<Segment>, ends: &[u16]) -> bool {
    let strays = |s: &Segment| s.edge_ix.is_some() && !is_on_one_contour(s, ends);
    segments.items.iter().any(strays)
}

/// Whether first and last of a segment are points of the same contour.
fn is_on_one_contour(segment: &Segment, ends: &[u16]) -> bool {
    let contour = |point: u16| ends.iter().position(|end| point <= *end);
    let (first, last) = (contour(segment.first_ix), contour(segment.last_ix));
    first.is_some() && first == last
}

/// The edges by which points are moved: those that segments name, and where the call says so the done ones of them alone.
fn moving_edges<'a>(
    segments: &'a Table<Segment>,
    edges: &'a Table<Edge>,
    given: &'a EdgePoints,
) -> impl Iterator<Item = &'a Edge> {
    let named = segments.items.iter().filter_map(|s| s.edge_ix);
    named
        .map(|ix| &edges.items[usize::from(ix)])
        .filter(|edge| !given.done_alone || edge.flags.contains(TopoFlags::DONE))
}

/// Strong points: the edges, the points, and that each of those that are placed has a place.
pub fn strong(table: &Table<Edge>, given: &Strong) -> Answer<()> {
    let count = given.fonts.len();
    let lengths = [
        given.originals.len(),
        given.currents.len(),
        given.touches.len(),
        given.weak.len(),
    ];
    refuse(
        1,
        table.count > EDGES || count > POINTS || lengths.iter().any(|len| *len != count),
    )?;
    edges(table, &[])?;
    let mut coordinates = given.originals.iter().chain(&given.currents);
    refuse(4, coordinates.any(|c| !COORDINATE.contains(c)))?;
    refuse(8, strong::placed(&table.items, given).is_none())
}

/// Mending an axis: of its indices those alone that nothing can be made of.
pub fn mend(segments: &Table<Segment>, edges: &Table<Edge>) -> Answer<()> {
    both_fit(segments, edges)?;
    numbers_of_both(segments, edges)?;
    refuse(3, name_beyond(segments, edges.count, |s| [s.edge_ix]))?;
    refuse(7, empty_edge(segments, edges).is_some())
}

/// The first edge that no segment names, if there is one.
pub fn empty_edge(segments: &Table<Segment>, edges: &Table<Edge>) -> Option<usize> {
    let named: BTreeSet<u16> = segments.items.iter().filter_map(|s| s.edge_ix).collect();
    (0..edges.items.len()).find(|ix| !named.contains(&(*ix as u16)))
}

/// An axis made smaller: its numbers are carried, whatever they are.
pub fn pack(segments: &Table<Segment>, edges: &Table<Edge>) -> Answer<()> {
    both_fit(segments, edges)?;
    indices_of_both(segments, edges)?;
    let broken = |ix: usize| !is_sound(&segments.items, &edges.items, ix);
    refuse(7, (0..edges.items.len()).any(broken))
}

/// Refusal 1 on both tables of an axis.
fn both_fit(segments: &Table<Segment>, edges: &Table<Edge>) -> Answer<()> {
    refuse(1, segments.count > SEGMENTS || edges.count > EDGES)
}

/// Refusal 3 on both tables of an axis: every index of a segment or an edge.
fn indices_of_both(segments: &Table<Segment>, edges: &Table<Edge>) -> Answer<()> {
    refuse(
        3,
        names_beyond(segments, |s| [s.link_ix, s.serif_ix, s.edge_next_ix])
            || names_beyond(edges, |e| [e.link_ix, e.serif_ix])
            || name_beyond(segments, edges.count, |s| [s.edge_ix])
            || name_beyond(edges, segments.count, |e| {
                [Some(e.first_ix), Some(e.last_ix)]
            }),
    )
}

/// Refusal 4 on both tables of an axis.
fn numbers_of_both(segments: &Table<Segment>, edges: &Table<Edge>) -> Answer<()> {
    refuse(
        4,
        !segments.items.iter().all(measures_fit) || !edges.items.iter().all(edge_fits),
    )
}

/// Refusal 10: a call that asks for the old order, on whichever axis and for whichever group.
fn bottom_to_top(top_to_bottom: bool) -> Answer<()> {
    refuse(10, top_to_bottom)
}

/// Refusal 3 on edges: a link, a serif, or an edge named in the call.
fn edge_indices(edges: &Table<Edge>, named: &[u16]) -> Answer<()> {
    refuse(
        3,
        names_beyond(edges, |e| [e.link_ix, e.serif_ix])
            || named.iter().any(|ix| usize::from(*ix) >= edges.count),
    )
}

/// Whether an index of some element into its own list is not below its length.
fn names_beyond<T, const N: usize>(
    table: &Table<T>,
    indices: impl Fn(&T) -> [Option<u16>; N],
) -> bool {
    name_beyond(table, table.count, indices)
}

/// Whether an index of some element is not below this length.
fn name_beyond<T, const N: usize>(
    table: &Table<T>,
    length: usize,
    indices: impl Fn(&T) -> [Option<u16>; N],
) -> bool {
    let beyond = |ix: &u16| usize::from(*ix) >= length;
    table
        .items
        .iter()
        .any(|item| indices(item).iter().flatten().any(beyond))
}

/// Whether these rise strictly and stay below the point count.
fn are_contour_ends(ends: &[u16], points: usize) -> bool {
    ends.windows(2).all(|pair| pair[0] < pair[1])
        && ends.iter().all(|end| usize::from(*end) < points)
}

/// Whether score and len are in the table.
fn measures_fit(segment: &Segment) -> bool {
    MEASURE.contains(&segment.score) && MEASURE.contains(&segment.len)
}

/// Whether `opos`, `pos` and a blue's `fitted` are in the table.
fn edge_fits(edge: &Edge) -> bool {
    COORDINATE.contains(&edge.opos)
        && POSITION.contains(&edge.pos)
        && edge
            .blue_edge
            .is_none_or(|blue| COORDINATE.contains(&blue.fitted))
}

/// Whether a snap rule's standards are few, in range and strictly rising; keep has none.
fn is_rule(rule: &WidthRule) -> bool {
    let WidthRule::Snap(standards) = rule else {
        return true;
    };
    standards.len() <= STANDARDS
        && standards.iter().all(|s| STANDARD.contains(s))
        && standards.windows(2).all(|pair| pair[0] < pair[1])
}
