//! Axes with the points of their segments: walks over the start of a contour, around the whole of it and of one point, several over one place, and every small one.

use super::{axes, edges, points, Random};
use crate::{
    job::{Edge, EdgePoints, Job, Segment, Table, TopoFlags},
    limits::{COORDINATE, EDGES, OLD_COORDINATE, POINTS, SEGMENTS},
};
use std::ops::RangeInclusive;

/// A job of edge points.
pub fn job(small: bool, random: &mut Random) -> Job {
    let (mut segments, mut edges) = axes::axis(small, random);
    let mut given = given(small, random);
    let contours = contours(&given.ends);
    let done = random.pick(&[1, 2, 2, 4]);
    for edge in &mut edges {
        edge.flags &= !TopoFlags::DONE;
        if random.once_in(done) {
            edge.flags |= TopoFlags::DONE;
        }
        bring_near(edge, random);
    }
    for segment in &mut segments {
        on_contour(segment, &contours, random);
    }
    match random.below(24) {
        0 => {
            stray(&mut segments, given.currents.len(), random);
            if random.coin() {
                go_beyond(&mut segments, &mut edges, &mut given, random);
            }
        }
        1 => leave_far(&mut edges, random),
        // one that nobody names, or that is not done where done ones alone are moved by
        2..=5 => edges.push(Edge {
            pos: far(random),
            ..Edge::default()
        }),
        6..=9 if given.done_alone => {
            for edge in &mut edges {
                if !edge.flags.contains(TopoFlags::DONE) && random.coin() {
                    edge.pos = far(random);
                }
            }
        }
        _ => {}
    }
    Job::EdgePoints(Table::of(segments), Table::of(edges), given)
}

/// Points and choices.
fn given(small: bool, random: &mut Random) -> EdgePoints {
    let count = match random.below(40) {
        0 => 0,
        1..=2 => 1,
        _ if small => random.below(8) + 1,
        _ => random.below(40) + 1,
    };
    let ends = match random.below(40) {
        0 => Vec::new(),
        // every point a contour of its own, or the last few
        1 => (0..count as u16).collect(),
        _ => points::ends(count, random),
    };
    let most = random.pick(&[20, 2_000, *OLD_COORDINATE.end(), *COORDINATE.end()]);
    EdgePoints {
        snap: random.coin(),
        done_alone: random.coin(),
        currents: (0..count).map(|_| random.between(-most, most)).collect(),
        touches: (0..count)
            .map(|_| random.pick(&[0, 0, 0, 1, 2, 9, 128, 255]))
            .collect(),
        ends,
    }
}

/// The points of each contour.
fn contours(ends: &[u16]) -> Vec<RangeInclusive<u16>> {
    let starts = [0].into_iter().chain(ends.iter().map(|end| end + 1));
    starts.zip(ends).map(|(start, end)| start..=*end).collect()
}

/// Puts a segment on a contour: one time in four over its start; without contours it has no edge.
fn on_contour(segment: &mut Segment, contours: &[RangeInclusive<u16>], random: &mut Random) {
    if contours.is_empty() {
        segment.edge_ix = None;
        return;
    }
    let (start, end) = random.pick(
        &contours
            .iter()
            .map(|c| (*c.start(), *c.end()))
            .collect::<Vec<_>>(),
    );
    let point = |random: &mut Random| start + random.below(usize::from(end - start) + 1) as u16;
    let (a, b) = (point(random), point(random));
    (segment.first_ix, segment.last_ix) = match random.below(16) {
        0..=5 => (a.min(b), a.max(b)),
        6..=10 => (a.max(b), a.min(b)),
        11 => (end, start),
        12 => (a, a),
        // the whole contour
        13 => (a, if a == start { end } else { a - 1 }),
        // behind the last point around the start
        14 => (end, b),
        _ => (start, end),
    };
    // what a segment without an edge names is not tested
    if segment.edge_ix.is_none() && random.coin() {
        segment.first_ix = random.below(65_536) as u16;
    }
}

/// Brings an edge to where points may be moved by it.
fn bring_near(edge: &mut Edge, random: &mut Random) {
    let within = |position: i32| position.clamp(*COORDINATE.start(), *COORDINATE.end());
    edge.pos = match random.below(8) {
        0 => edge.opos,
        1 => random.pick(&[*COORDINATE.start(), *COORDINATE.end()]),
        2 => edges::opos(random),
        3..=4 => within(edge.pos),
        _ => within(edge.opos + random.between(-90, 90)),
    };
}

/// A position by which no point may be moved, or, once in four times, that is just within.
pub fn far(random: &mut Random) -> i32 {
    let far = random.pick(&[65_535, 65_536, 65_536, 16_777_216]);
    if random.coin() {
        -far
    } else {
        far
    }
}

/// Leaves one edge far from 0.
fn leave_far(edges: &mut [Edge], random: &mut Random) {
    if !edges.is_empty() {
        let at = random.below(edges.len());
        edges[at].pos = far(random);
    }
}

/// Makes a segment's first or last be of another contour, of none, or beyond the points.
fn stray(segments: &mut [Segment], count: usize, random: &mut Random) {
    if segments.is_empty() {
        return;
    }
    let at = random.below(segments.len());
    let any = random.below(count + 2);
    let point = random.pick(&[any, any, count, count.saturating_sub(1), 65_535]);
    if random.coin() {
        segments[at].first_ix = point as u16;
    } else {
        segments[at].last_ix = point as u16;
    }
    if random.once_in(4) {
        segments[at].first_ix = segments[at].last_ix;
    }
}

/// Puts a current, a score or an edge's position beyond its limit: a walk that leaves its contour is told first.
fn go_beyond(
    segments: &mut [Segment],
    edges: &mut [Edge],
    given: &mut EdgePoints,
    random: &mut Random,
) {
    match random.below(3) {
        0 => given.currents.iter_mut().for_each(|c| *c = 65_536),
        1 => segments.iter_mut().for_each(|segment| segment.score = -1),
        _ => edges.iter_mut().for_each(|edge| edge.pos = 65_536),
    }
}

/// Makes a list of a job long, or breaks the rule of the contour ends or of the lists' lengths.
pub fn resize(
    segments: &mut Table<Segment>,
    edges: &mut Table<Edge>,
    given: &mut EdgePoints,
    random: &mut Random,
) {
    match random.below(40) {
        0 => {
            let count = random.pick(&[POINTS - 1, POINTS, POINTS + 1, 2 * POINTS - 1]);
            given.currents.resize(count, 6);
            given.touches.resize(count, 0);
            given.ends.push(count as u16 - 1);
        }
        // many segments over few points: without snap they add up
        1 => {
            let count = random.pick(&[SEGMENTS - 1, SEGMENTS, SEGMENTS, SEGMENTS + 1, 65_535]);
            let items = segments.items.iter().copied().cycle();
            segments.items = items.take(count.min(SEGMENTS)).collect();
            if !segments.items.is_empty() {
                segments.count = count;
            }
        }
        2..=5 => {
            let count = random.pick(&[EDGES - 1, EDGES, EDGES, EDGES + 1, 65_535]);
            edges.items.resize(count.min(EDGES), Edge::default());
            edges.count = count;
            if let Some(segment) = segments.items.first_mut().filter(|_| random.coin()) {
                segment.edge_ix = Some(EDGES as u16 - 1);
            }
        }
        6..=12 => given.currents.push(0),
        13..=18 => given.touches.push(1),
        19..=24 => given.ends.extend(given.ends.last().copied()),
        25..=30 => given.ends.reverse(),
        // behind the last contour nobody is on one
        31..=35 => drop(given.ends.pop()),
        _ => {
            *segments = Table::of(Vec::new());
            for edge in &mut edges.items {
                (edge.first_ix, edge.last_ix) = (0, 0);
            }
        }
    }
}

/// Hands on every job of one segment on one edge over up to four points, and of two segments on two edges over up to three: every cut into contours, every first and last, also
/// one beyond the points, with an edge or without, done or not, with both choices.
pub fn small<E>(hand_on: &mut impl FnMut(&Job) -> Result<(), E>) -> Result<(), E> {
    for count in 0..=4 {
        each(count, 1, hand_on)?;
    }
    for count in 0..=3 {
        each(count, 2, hand_on)?;
    }
    Ok(())
}

/// Hands on every job of so many segments, each with an edge of its own or none, over so many points.
fn each<E>(
    count: usize,
    segments: usize,
    hand_on: &mut impl FnMut(&Job) -> Result<(), E>,
) -> Result<(), E> {
    const PLACES: [(i32, u8); 4] = [(10, 0), (5, 9), (6, 0), (12, 7)];
    const EDGES: [(i32, i32); 2] = [(10, 64), (0, 9)];
    // first, last, done, and whether there is an edge
    let of_segment = (count + 1) * (count + 1) * 4;
    for code in 0..of_segment.pow(segments as u32) << (count + 2) {
        let (choices, code) = (code & 3, code >> 2);
        let (cuts, mut code) = (code & ((1 << count) - 1), code >> count);
        let mut digit = |base: usize| {
            let digit = code % base;
            code /= base;
            digit
        };
        let mut made = Vec::new();
        let mut made_edges = Vec::new();
        for (ix, (opos, pos)) in EDGES.iter().enumerate().take(segments) {
            made.push(Segment {
                first_ix: digit(count + 1) as u16,
                last_ix: digit(count + 1) as u16,
                edge_ix: (digit(2) == 1).then_some(ix as u16),
                ..Segment::default()
            });
            let done = TopoFlags::from_bits_truncate(TopoFlags::DONE.to_bits() * digit(2) as u8);
            made_edges.push(Edge {
                opos: *opos,
                pos: *pos,
                flags: done,
                ..Edge::default()
            });
        }
        let given = EdgePoints {
            snap: choices & 1 == 1,
            done_alone: choices & 2 == 2,
            currents: PLACES[..count].iter().map(|place| place.0).collect(),
            touches: PLACES[..count].iter().map(|place| place.1).collect(),
            ends: (0..count as u16).filter(|ix| cuts >> ix & 1 == 1).collect(),
        };
        hand_on(&Job::EdgePoints(
            Table::of(made),
            Table::of(made_edges),
            given,
        ))?;
    }
    Ok(())
}
