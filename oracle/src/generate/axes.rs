//! Axes to turn over: tables of both orders, with links, serifs and rings.

use super::{edges, segments, Random};
use crate::{
    calls,
    job::{Direction, Edge, Job, Segment, Table},
    limits::EDGES,
};

/// A job of turning an axis over.
pub fn turn_over(small: bool, random: &mut Random) -> Job {
    let (mut segments, mut edges) = axis(small, random);
    if random.once_in(3) {
        break_rings(&mut segments, &mut edges, random);
    }
    Job::TurnOver(Table::of(segments), Table::of(edges))
}

/// An axis that the given Rust builds, or one that is made up.
pub fn axis(small: bool, random: &mut Random) -> (Vec<Segment>, Vec<Edge>) {
    if random.coin() {
        built(small, random)
    } else {
        made(small, random)
    }
}

/// The axis that the given Rust builds of made-up segments, in either order; edges then get other flags, blues, links and serifs, or not.
pub fn built(small: bool, random: &mut Random) -> (Vec<Segment>, Vec<Edge>) {
    let mut given = segments::building(random);
    given.top_to_bottom = random.coin();
    let count = random.below(if small { 5 } else { 24 }) + 1;
    let made = segments::building_segments(count, &given, small, random);
    let mut axis = calls::cleared(&made, &given);
    calls::build(&mut axis, &calls::building_metrics(&given), &given);
    debug_assert!(axis.edges.len() <= EDGES, "there are few segments");
    if random.once_in(3) && !axis.edges.is_empty() {
        edges::dress(&mut axis.edges, random);
    }
    (axis.segments, axis.edges)
}

/// An axis whose every index is in its table, and stands for nothing.
fn made(small: bool, random: &mut Random) -> (Vec<Segment>, Vec<Edge>) {
    let most = if small { 4 } else { 20 };
    let (count, edge_count) = (random.below(most) + 1, random.below(most));
    let mut segments = vec![Segment::default(); count];
    for segment in &mut segments {
        segment.pos = random.between(-9, 9) as i16;
        segment.dir = random.pick(&[Direction::Up, Direction::Down, Direction::None]);
        segment.score = random.between(0, 65_535);
        segment.len = random.between(0, 400);
        segment.link_ix = below(count, random);
        segment.serif_ix = below(count, random);
        segment.edge_ix = below(edge_count, random);
        segment.edge_next_ix = below(count, random);
    }
    let mut edges = vec![Edge::default(); edge_count];
    if edge_count > 0 {
        edges::dress(&mut edges, random);
    }
    for (ix, edge) in edges.iter_mut().enumerate() {
        edge.fpos = ix as i16 * random.pick(&[-3, 0, 3]);
        edge.opos = edges::opos(random);
        edge.first_ix = random.below(count) as u16;
        edge.last_ix = random.below(count) as u16;
    }
    (segments, edges)
}

/// An index into a list of this length, or none.
fn below(length: usize, random: &mut Random) -> Option<u16> {
    (length > 0 && random.below(4) > 0).then(|| random.below(length) as u16)
}

/// Changes a few indices of the rings, within their tables.
fn break_rings(segments: &mut [Segment], edges: &mut [Edge], random: &mut Random) {
    let count = segments.len();
    for _ in 0..random.below(3) + 1 {
        let at = random.below(count);
        match random.below(4) {
            0 => segments[at].edge_next_ix = below(count, random),
            1 => segments[at].edge_ix = below(edges.len(), random),
            kind => {
                if let Some(edge) = edges.get_mut(at) {
                    let ix = random.below(count) as u16;
                    *(if kind == 2 {
                        &mut edge.first_ix
                    } else {
                        &mut edge.last_ix
                    }) = ix;
                }
            }
        }
    }
}
