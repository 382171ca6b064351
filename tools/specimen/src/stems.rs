//! Stems, and the gaps between them, that have no pixel left.

use crate::{
    chain::{extent, Fitted, FittedAxis, LEAST_GAP},
    fill::Bitmap,
    findings::{What, TIMES},
    place::{at_least_a_pixel, common, hull, middle, Place},
    size::PIXEL,
};
use std::ops::RangeInclusive;

/// The stems of both axes that have no black pixel left, and the gaps between them that have no white one.
pub fn lost_stems(fitted: &Fitted, outline: &Bitmap, pixels: &Bitmap) -> Vec<(What, Place)> {
    let mut found = Vec::new();
    for (axis, other) in fitted.axes() {
        let stems = stems_of(axis).into_iter().filter_map(|stem| {
            let places = between(axis, other, stem, hull)?;
            let place = lost(places, true, outline, pixels)?;
            Some((What::StemVanishes(axis.dimension, stem), place))
        });
        let gaps = gaps_of(axis, other)
            .into_iter()
            .filter_map(|(gap, places)| {
                let place = lost(places, false, outline, pixels)?;
                Some((What::StemsMerge(axis.dimension, gap), place))
            });
        found.extend(stems.chain(gaps));
    }
    found
}

/// The stems of an axis: edges that name each other, the lower one first.
fn stems_of(axis: &FittedAxis) -> Vec<[usize; 2]> {
    let link = |edge: usize| axis.edges[edge].link().map(usize::from);
    let stem = |edge: usize| {
        link(edge)
            .filter(|to| edge < *to && link(*to) == Some(edge))
            .map(|to| [edge, to])
    };
    (0..axis.edges.len()).filter_map(stem).collect()
}

/// The gaps between each stem and the next one that faces it, as far as they were wide enough: their edges and their places before and after.
fn gaps_of(axis: &FittedAxis, other: &FittedAxis) -> Vec<([usize; 2], [Place; 2])> {
    let stems = stems_of(axis);
    let facing = |from: usize| {
        let next = stems.iter().map(|stem| stem[0]).filter(|to| *to > from);
        next.map(|to| [from, to])
            .find_map(|gap| Some((gap, between(axis, other, gap, common)?)))
    };
    let width = |[from, to]: [usize; 2]| axis.edges[to].opos() - axis.edges[from].opos();
    let gaps = stems.iter().filter_map(|[_, from]| facing(*from));
    gaps.filter(|(gap, _)| width(*gap) >= LEAST_GAP).collect()
}

/// What two extents come to together.
type Joined = fn(&RangeInclusive<i32>, &RangeInclusive<i32>) -> Option<RangeInclusive<i32>>;

/// The places between two edges, before and after; their extents across the axis come to one.
fn between(
    axis: &FittedAxis,
    other: &FittedAxis,
    edges: [usize; 2],
    joined: Joined,
) -> Option<[Place; 2]> {
    let points = edges.map(|edge| axis.points_of(edge));
    let place = |own: &[i32], across: &[i32]| {
        let [from, to] = [extent(&points[0], own)?, extent(&points[1], own)?].map(|at| middle(&at));
        let across = joined(&extent(&points[0], across)?, &extent(&points[1], across)?)?;
        Some(Place::on(
            axis.dimension,
            from..=to,
            at_least_a_pixel(across),
        ))
    };
    Some([
        place(&axis.before, &other.before)?,
        place(&axis.after, &other.after)?,
    ])
}

/// The second of a place before and after, if the first was mostly of a colour and the second has no pixel of it.
fn lost([was, is]: [Place; 2], black: bool, outline: &Bitmap, pixels: &Bitmap) -> Option<Place> {
    let [own, all] = coloured(outline, PIXEL / TIMES, &was, black);
    let [left, _] = coloured(pixels, PIXEL, &is, black);
    (2 * own > all && left == 0).then(|| is.ordered())
}

/// How many pixels, each so many units wide, have their centre in a place and are of a colour, and how many there are.
fn coloured(bitmap: &Bitmap, units: i32, place: &Place, black: bool) -> [usize; 2] {
    let centre = |at: i32| at * units + units / 2;
    let inside =
        |(x, y): &(i32, i32)| place.xs.contains(&centre(*x)) && place.ys.contains(&centre(*y));
    let all: Vec<_> = bitmap.pixels().filter(inside).collect();
    let own = all
        .iter()
        .filter(|(x, y)| bitmap.is_black(*x, *y) == black)
        .count();
    [own, all.len()]
}
