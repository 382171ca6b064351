//! The path, the guard and what is shown as one would write them for speed, for benchmarks: one pass over the points, each step pushed behind the one before, one over the edges, and a
//! scanline fill.

use crate::{
    gaps::{Lost, Pair},
    job::{Edge, TopoFlags, Walk},
    path::{Place, Step},
    shown::Shown,
};
use std::ops::Range;

/// Pushes every step of an accepted outline.
pub fn steps(walk: &Walk, steps: &mut Vec<Step>) {
    let mut first = 0;
    for end in &walk.ends {
        let behind = usize::from(*end) + 1;
        contour(walk, first..behind, steps);
        first = behind;
    }
}

/// Pushes the steps of a contour: the control point that waits for its end is kept from point to point.
fn contour(walk: &Walk, points: Range<usize>, steps: &mut Vec<Step>) {
    let on = |ix: usize| walk.marks[ix] != 0;
    let count = points.len();
    let (start, from, left) = match points.clone().find(|ix| on(*ix)) {
        Some(first) => (place(walk, first), first + 1, count - 1),
        None => (
            halfway(walk, points.end - 1, points.start),
            points.start,
            count,
        ),
    };
    steps.push(Step::Move(start));
    let mut control = None;
    for ix in from..from + left {
        let ix = if ix < points.end { ix } else { ix - count };
        match control {
            None if on(ix) => steps.push(Step::Line(place(walk, ix))),
            None => control = Some(ix),
            Some(off) if on(ix) => {
                steps.push(Step::Curve(place(walk, off), place(walk, ix)));
                control = None;
            }
            Some(off) => {
                steps.push(Step::Curve(place(walk, off), halfway(walk, off, ix)));
                control = Some(ix);
            }
        }
    }
    if let Some(off) = control {
        steps.push(Step::Curve(place(walk, off), start));
    }
    steps.push(Step::Close);
}

/// Where a point is.
fn place(walk: &Walk, ix: usize) -> Place {
    Place {
        x: walk.xs[ix] as f32 / 64.0,
        y: walk.ys[ix] as f32 / 64.0,
    }
}

/// Halfway between two points.
fn halfway(walk: &Walk, a: usize, b: usize) -> Place {
    Place {
        x: (walk.xs[a] + walk.xs[b]) as f32 / 128.0,
        y: (walk.ys[a] + walk.ys[b]) as f32 / 128.0,
    }
}

/// What is lost of accepted edges: the last edge that counts is kept from edge to edge, and positions are shifted to the rows below them.
pub fn lost_gaps(edges: &[Edge], least: i32, linked: bool) -> Lost {
    let mut lost = Lost::default();
    let mut last: Option<(usize, &Edge)> = None;
    for (second, high) in edges.iter().enumerate() {
        if !high.flags.contains(TopoFlags::DONE) {
            lost.not_done += 1;
            continue;
        }
        if linked && high.link_ix.is_none() {
            continue;
        }
        if let Some((first, low)) = last.replace((second, high)) {
            let (before, after) = (high.opos - low.opos, high.pos - low.pos);
            let is_stem = low.link_ix == Some(second as u16) || high.link_ix == Some(first as u16);
            let has_row = (low.pos + 31) >> 6 < (high.pos + 31) >> 6;
            if (is_stem || before >= least) && (after < 0 || before > 0 && !has_row) {
                lost.stems += usize::from(is_stem);
                lost.gaps += usize::from(!is_stem);
                lost.first.get_or_insert(Pair {
                    first,
                    second,
                    before,
                    after,
                    is_stem,
                    has_row,
                });
            }
        }
    }
    lost
}

/// Places of the fill are whole numbers of this part of a pixel.
const PIXEL: i64 = 64 * 512;

/// A place of an outline.
type Spot = (i64, i64);

/// What is shown of an accepted outline: its lines in a list, of each row the crossings sorted and the spans between them filled, and each corner held against the row below.
pub fn count_shown(walk: &Walk, magnify: i32) -> Shown {
    let lines = lines(walk, magnify.into());
    let mut shown = Shown::default();
    let (Some(low), Some(high)) = (
        lines.iter().map(|line| line.0 .1).min(),
        lines.iter().map(|line| line.0 .1).max(),
    ) else {
        return shown;
    };
    let xs = || lines.iter().map(|line| line.0 .0);
    let (left, right) = (xs().min().unwrap_or(0), xs().max().unwrap_or(0));
    let first = left.div_euclid(PIXEL) - 1;
    let width = (right.div_euclid(PIXEL) + 2 - first) as usize;
    let (mut below, mut here) = (vec![false; width], vec![false; width]);
    let mut crossings = Vec::new();
    for row in low.div_euclid(PIXEL)..=high.div_euclid(PIXEL) + 1 {
        crossings.clear();
        let height = row * PIXEL + PIXEL / 2;
        crossings.extend(lines.iter().filter_map(|line| crossing(line, height)));
        crossings.sort_unstable();
        here.fill(false);
        let mut winding = 0;
        for pair in crossings.windows(2) {
            winding += pair[0].1;
            if winding != 0 {
                let [from, to] = [pair[0].0, pair[1].0].map(|column| (column - first) as usize);
                here[from..to].fill(true);
            }
        }
        count_row(&below, &here, &mut shown);
        std::mem::swap(&mut below, &mut here);
    }
    shown
}

/// Adds the corners between two rows, with the sides right of and above them and the pixels between.
fn count_row(below: &[bool], here: &[bool], shown: &mut Shown) {
    for at in 1..here.len() {
        let [a, b, c, d] = [below[at - 1], below[at], here[at - 1], here[at]];
        let one = |is: bool| i32::from(is);
        shown.black += usize::from(d);
        shown.euler += one(a | b | c | d) - one(b | d) - one(c | d) + one(d);
    }
}

/// The first column whose centre is at or right of where a line crosses a height, and 1 where it goes upward, -1 where downward, if it does.
fn crossing((from, to): &(Spot, Spot), height: i64) -> Option<(i64, i32)> {
    let (low, high, turn) = if from.1 <= height && height < to.1 {
        (from, to, 1)
    } else if to.1 <= height && height < from.1 {
        (to, from, -1)
    } else {
        return None;
    };
    let rise = high.1 - low.1;
    let aside = ((high.0 - low.0) * (height - low.1) + rise - 1).div_euclid(rise);
    Some(((low.0 + aside + PIXEL / 2 - 1).div_euclid(PIXEL), turn))
}

/// The lines of an accepted outline, magnified.
fn lines(walk: &Walk, magnify: i64) -> Vec<(Spot, Spot)> {
    let mut path = Vec::new();
    steps(walk, &mut path);
    let spot = |place: Place| {
        let parts = |pixels: f32| (pixels * PIXEL as f32) as i64 * magnify;
        (parts(place.x), parts(place.y))
    };
    let (mut start, mut here) = ((0, 0), (0, 0));
    let mut lines = Vec::new();
    for step in path {
        match step {
            Step::Move(place) => (start, here) = (spot(place), spot(place)),
            Step::Line(place) => {
                let to = spot(place);
                lines.push((here, to));
                here = to;
            }
            Step::Curve(by, to) => {
                let (from, by, to) = (here, spot(by), spot(to));
                for cut in 1..=16 {
                    let left = 16 - cut;
                    let mix = |a: i64, b: i64, c: i64| {
                        (left * left * a + 2 * left * cut * b + cut * cut * c) / 256
                    };
                    let to = (mix(from.0, by.0, to.0), mix(from.1, by.1, to.1));
                    lines.push((here, to));
                    here = to;
                }
            }
            Step::Close => lines.push((here, start)),
        }
    }
    lines
}
