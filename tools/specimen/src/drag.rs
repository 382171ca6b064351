//! A touched point that is dragged: the library's answers for every position in reach, each on the fitted drawing with this one point set.

use crate::{
    chain::{steps, Fitted, FittedAxis},
    size::PIXEL,
    specimen::Row,
};
use khsaemudol::{drag_point, Dimension, PathStep};

/// How far a point can be dragged either way, in units: two pixels.
const REACH: i32 = 2 * PIXEL;

/// From one position to the next, in units: a quarter of a pixel.
const STEP: i32 = PIXEL / 4;

/// A place of a path is a point's or in the middle of two: twice its units are whole.
const HALVES: i32 = 2;

/// What moves alike while a point is dragged on an axis.
#[derive(Debug, PartialEq)]
pub struct Moving {
    pub points: Vec<usize>,
    /// The places of the path, in its order.
    pub places: Vec<usize>,
    /// How far from where it is fitted, in halves of a unit, for each position of the dragged point.
    pub by: Vec<i32>,
}

/// All that moves while a point is dragged on an axis, the point itself first. None where it is not touched. A position that is refused is not in reach.
pub fn drags(row: &Row, fitted: &Fitted, axis: &FittedAxis, point: usize) -> Option<Vec<Moving>> {
    if !axis.placing[point].is_touched() {
        return None;
    }
    let fitted_halves = halves(&axis.after, &places(&fitted.after, axis.dimension));
    let answers: Vec<Vec<i32>> = positions(axis.before[point] - axis.after[point])
        .into_iter()
        .filter_map(|by| dragged(row, fitted, axis, point, by))
        .collect();
    let mut moving = vec![];
    let points = axis.after.len();
    let others = (0..fitted_halves.len()).filter(|other| *other != point);
    for one in std::iter::once(point).chain(others) {
        let by = answers
            .iter()
            .map(|answer| answer[one] - fitted_halves[one]);
        put(&mut moving, one, points, by.collect());
    }
    // the fitted drawing is where a drag starts
    moving.first()?.by.contains(&0).then_some(moving)
}

/// The positions in reach, by how far they are from the fitted one, in rising order: the original, which is this far, among them where it is in reach.
fn positions(original: i32) -> Vec<i32> {
    let mut positions: Vec<i32> = (-REACH..=REACH).step_by(STEP as usize).collect();
    positions.push(original.clamp(-REACH, REACH));
    positions.sort_unstable();
    positions.dedup();
    positions
}

/// Adds what moves by so much, points in front of places, to what moves alike; what does not move is left out.
fn put(moving: &mut Vec<Moving>, one: usize, points: usize, by: Vec<i32>) {
    if by.iter().all(|by| *by == 0) {
        return;
    }
    let known = moving.iter().position(|moving| moving.by == by);
    let at = known.unwrap_or_else(|| {
        moving.push(Moving {
            points: vec![],
            places: vec![],
            by,
        });
        moving.len() - 1
    });
    match one.checked_sub(points) {
        None => moving[at].points.push(one),
        Some(place) => moving[at].places.push(place),
    }
}

/// Where the points and the places of the path come to on an axis, in halves of a unit, where a point is dragged by so many units; none where that is refused.
fn dragged(
    row: &Row,
    fitted: &Fitted,
    axis: &FittedAxis,
    point: usize,
    by: i32,
) -> Option<Vec<i32>> {
    let mut currents = axis.after.clone();
    currents[point] += by;
    let index = u32::try_from(point).ok()?;
    drag_point(
        &axis.before,
        &mut currents,
        &axis.touched(),
        &axis.ends,
        index,
    )
    .ok()?;
    let (xs, ys) = match axis.dimension {
        Dimension::Horizontal => (&currents, &fitted.heights.after),
        Dimension::Vertical => (&fitted.widths.after, &currents),
    };
    let path = steps(&row.on_curve, &row.ends, xs, ys).ok()?;
    Some(halves(&currents, &places(&path, axis.dimension)))
}

/// Points in units, and behind them places in pixels, in halves of a unit.
fn halves(points: &[i32], places: &[f32]) -> Vec<i32> {
    let point = |point: &i32| point * HALVES;
    let place = |place: &f32| (place * (PIXEL * HALVES) as f32) as i32;
    let points = points.iter().map(point);
    points.chain(places.iter().map(place)).collect()
}

/// The coordinates of a path on an axis, in pixels.
pub fn places(path: &[PathStep], dimension: Dimension) -> Vec<f32> {
    let place = |step: &PathStep| match step {
        PathStep::Move(to) | PathStep::Line(to) => vec![*to],
        PathStep::Curve(by, to) => vec![*by, *to],
        PathStep::Close => vec![],
    };
    let along = |place: khsaemudol::PixelPoint| match dimension {
        Dimension::Horizontal => place.x,
        Dimension::Vertical => place.y,
    };
    path.iter().flat_map(place).map(along).collect()
}

/// What moves, as the page reads it: for each the points, the places and how far.
pub fn text(moving: &[Moving]) -> String {
    let one = |one: &Moving| format!("[{:?},{:?},{:?}]", one.points, one.places, one.by);
    let all: Vec<String> = moving.iter().map(one).collect();
    format!("[{}]", all.join(",")).replace(' ', "")
}
