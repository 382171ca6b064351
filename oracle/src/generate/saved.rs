//! Axes as they are saved: with rings that close, damaged ones to be mended, and such with segments that serve no edge.

use super::{axes, edges, Random};
use crate::{
    job::{Direction, Edge, Job, Segment, Table},
    limits::{COORDINATE, EDGES, MEASURE, SEGMENTS},
};

/// The two lists of an axis.
type Axis = (Vec<Segment>, Vec<Edge>);

/// A job of mending: an axis as it is, or damaged in one field or in several.
pub fn mend(small: bool, random: &mut Random) -> Job {
    let (mut segments, mut edges) = closed(small, random);
    for _ in 0..random.pick(&[0, 0, 1, 1, 1, 2, 3, 6]) {
        damage(&mut segments, &mut edges, random);
    }
    Job::Mend(Table::of(segments), Table::of(edges))
}

/// A job of making an axis smaller, now and then with an index or a ring damaged.
pub fn pack(small: bool, random: &mut Random) -> Job {
    let (mut segments, mut edges) = closed(small, random);
    lead(&mut segments, random);
    if random.once_in(4) {
        damage(&mut segments, &mut edges, random);
    }
    Job::Pack(Table::of(segments), Table::of(edges))
}

/// An axis whose rings are sound: one that the given Rust builds, or one with rings in any order.
fn closed(small: bool, random: &mut Random) -> Axis {
    if random.once_in(3) {
        return axes::built(small, random);
    }
    let count = random.below(if small { 6 } else { 30 }) + 1;
    let edge_count = random.below(count.min(if small { 3 } else { 12 }) + 1);
    ringed(count, edge_count, random)
}

/// An axis of so many segments and edges, each edge with a ring of its own; the other segments have an edge often, now and then, or never.
fn ringed(count: usize, edge_count: usize, random: &mut Random) -> Axis {
    let mut segments: Vec<Segment> = (0..count).map(|_| segment(count, random)).collect();
    let order = shuffled((0..count).collect(), random);
    let often = random.pick(&[0, 1, 2, 3]);
    for (place, ix) in order.into_iter().enumerate() {
        if place < edge_count {
            segments[ix].edge_ix = Some(place as u16);
        } else if edge_count > 0 && random.below(4) < often {
            segments[ix].edge_ix = Some(random.below(edge_count) as u16);
        }
    }
    let mut edges = vec![Edge::default(); edge_count];
    if edge_count > 0 {
        edges::dress(&mut edges, random);
    }
    for (ix, edge) in edges.iter_mut().enumerate() {
        edge.fpos = 9 * ix as i16;
        edge.opos = random.between(*COORDINATE.start(), *COORDINATE.end());
        close(&mut segments, edge, ix, random);
    }
    (segments, edges)
}

/// A segment without an edge, whose link and serif are in its list; its next is none, or in its list too.
fn segment(count: usize, random: &mut Random) -> Segment {
    Segment {
        pos: random.between(-9, 9) as i16,
        dir: random.pick(&[Direction::Up, Direction::Down, Direction::None]),
        score: random.between(*MEASURE.start(), *MEASURE.end()),
        len: random.between(0, 400),
        first_ix: random.below(65_536) as u16,
        last_ix: random.below(65_536) as u16,
        link_ix: random.coin().then(|| random.below(count) as u16),
        serif_ix: random.once_in(4).then(|| random.below(count) as u16),
        edge_next_ix: random.once_in(4).then(|| random.below(count) as u16),
        ..Segment::default()
    }
}

/// Closes the ring of an edge over its segments, in rising or in any order.
fn close(segments: &mut [Segment], edge: &mut Edge, ix: usize, random: &mut Random) {
    let of_edge = |at: &usize| segments[*at].edge_ix == Some(ix as u16);
    let mut ring: Vec<usize> = (0..segments.len()).filter(of_edge).collect();
    if random.coin() {
        ring = shuffled(ring, random);
    }
    for (place, at) in ring.iter().enumerate() {
        segments[*at].edge_next_ix = Some(ring[(place + 1) % ring.len()] as u16);
    }
    (edge.first_ix, edge.last_ix) = (ring[0] as u16, ring[ring.len() - 1] as u16);
}

/// The same numbers in any order.
fn shuffled(mut numbers: Vec<usize>, random: &mut Random) -> Vec<usize> {
    for end in (1..numbers.len()).rev() {
        numbers.swap(end, random.below(end + 1));
    }
    numbers
}

/// An index beyond a list of this length.
fn beyond(length: usize, random: &mut Random) -> u16 {
    let near = length + random.below(3);
    random.pick(&[length, near, 600.max(length), 65_535]) as u16
}

/// Any value of an index: none, in a list of this length, or beyond.
fn any(length: usize, random: &mut Random) -> Option<u16> {
    match random.below(6) {
        0 => None,
        1 => Some(beyond(length, random)),
        _ => Some(random.below(length.max(1)) as u16),
    }
}

/// Damages an axis in one way.
fn damage(segments: &mut Vec<Segment>, edges: &mut [Edge], random: &mut Random) {
    let count = segments.len();
    if count == 0 {
        return;
    }
    let at = random.below(count);
    match random.below(16) {
        0 => segments[at].link_ix = Some(beyond(count, random)),
        1 => segments[at].serif_ix = Some(beyond(count, random)),
        2..=4 => segments[at].edge_next_ix = any(count, random),
        // two rings become one, or one becomes two
        5 => {
            let other = random.below(count);
            let next = segments[at].edge_next_ix;
            segments[at].edge_next_ix = segments[other].edge_next_ix;
            segments[other].edge_next_ix = next;
        }
        // a segment leaves its ring, which still names it
        6 => segments[at].edge_ix = any(edges.len(), random),
        // segments are removed, and links and rings still name them
        7..=8 => segments.truncate(count.saturating_sub(random.below(4))),
        _ if !edges.is_empty() => damage_edge(segments, edges, random),
        _ => {}
    }
}

/// Damages an edge.
fn damage_edge(segments: &[Segment], edges: &mut [Edge], random: &mut Random) {
    let (count, edge_count) = (segments.len(), edges.len());
    let (at, other) = (random.below(edge_count), random.below(edge_count));
    let edge = &mut edges[at];
    match random.below(8) {
        0 => edge.link_ix = Some(beyond(edge_count, random)),
        1 => edge.serif_ix = Some(beyond(edge_count, random)),
        2 => edge.first_ix = any(count, random).unwrap_or(0),
        3 => edge.last_ix = any(count, random).unwrap_or(0),
        4 => (edge.first_ix, edge.last_ix) = (edge.last_ix, edge.first_ix),
        // one step further round the same loop: still sound
        5 => {
            let next = segments.get(usize::from(edge.first_ix));
            let next = next.and_then(|first| first.edge_next_ix);
            (edge.last_ix, edge.first_ix) = (edge.first_ix, next.unwrap_or(edge.first_ix));
        }
        // exchanged ends
        _ => {
            let ends = (edges[at].first_ix, edges[at].last_ix);
            (edges[at].first_ix, edges[at].last_ix) = (edges[other].first_ix, edges[other].last_ix);
            (edges[other].first_ix, edges[other].last_ix) = ends;
        }
    }
}

/// Makes segments without an edge be reached from others: one from the next in falling order or in rising order, some by several, or none.
fn lead(segments: &mut [Segment], random: &mut Random) {
    let count = segments.len();
    let (on_edges, loose): (Vec<usize>, Vec<usize>) =
        (0..count).partition(|ix| segments[*ix].edge_ix.is_some());
    let (Some(start), Some(first)) = (on_edges.last(), loose.first()) else {
        return;
    };
    let chain: Vec<usize> = match random.below(6) {
        0 => loose.iter().rev().copied().collect(),
        1 => loose.clone(),
        2 => shuffled(loose.clone(), random),
        // several name one, which names another
        3 => {
            for ix in &on_edges {
                segments[*ix].serif_ix = Some(*first as u16);
            }
            loose.clone()
        }
        // these name what is kept, and are not named
        4 => {
            for segment in segments {
                (segment.link_ix, segment.serif_ix) = (Some(*start as u16), None);
            }
            return;
        }
        _ => return,
    };
    let mut from = *start;
    for to in chain {
        let segment = &mut segments[from];
        if random.below(4) > 0 {
            segment.link_ix = Some(to as u16);
        } else {
            segment.serif_ix = Some(to as u16);
        }
        from = to;
    }
}

/// Makes an axis as long as its limits, or one longer.
pub fn lengthen(segments: &mut Table<Segment>, edges: &mut Table<Edge>, random: &mut Random) {
    let count = random.pick(&[SEGMENTS - 1, SEGMENTS, SEGMENTS]);
    let edge_count = random.pick(&[0, 1, EDGES - 1, EDGES, EDGES]);
    let (made, made_edges) = ringed(count, edge_count, random);
    (*segments, *edges) = (Table::of(made), Table::of(made_edges));
    match random.below(8) {
        0 => segments.count = SEGMENTS + 1,
        1 if edge_count == EDGES => edges.count = EDGES + 1,
        _ => {}
    }
}

/// A job of mending whose lists are full, as they are or damaged in every field.
pub fn longest(random: &mut Random) -> Job {
    let (segments, edges) = ringed(SEGMENTS, EDGES, random);
    let (mut segments, mut edges) = (Table::of(segments), Table::of(edges));
    if random.coin() {
        ruin(&mut segments, &mut edges, random);
    }
    Job::Mend(segments, edges)
}

/// Damages every field that can be mended: of full lists 2,048.
pub fn ruin(segments: &mut Table<Segment>, edges: &mut Table<Edge>, random: &mut Random) {
    let (count, edge_count) = (segments.items.len(), edges.items.len());
    for segment in &mut segments.items {
        segment.link_ix = Some(beyond(count, random));
        segment.serif_ix = Some(beyond(count, random));
        segment.edge_next_ix = Some(beyond(count, random));
    }
    for edge in &mut edges.items {
        edge.link_ix = Some(beyond(edge_count, random));
        edge.serif_ix = Some(beyond(edge_count, random));
        edge.first_ix = beyond(count, random);
        edge.last_ix = beyond(count, random);
    }
}

/// Makes one chain of all segments, to lower indices or to higher ones, in which the first has the one edge.
pub fn chain(segments: &mut Table<Segment>, edges: &mut Table<Edge>, random: &mut Random) {
    let falling = random.coin();
    let count = segments.items.len();
    if count == 0 {
        return;
    }
    for (ix, segment) in segments.items.iter_mut().enumerate() {
        let next = if falling {
            ix.checked_sub(1)
        } else {
            Some(ix + 1)
        };
        segment.link_ix = next.filter(|ix| *ix < count).map(|ix| ix as u16);
        segment.serif_ix = None;
        segment.edge_ix = None;
    }
    let first = if falling { count - 1 } else { 0 };
    segments.items[first].edge_ix = Some(0);
    segments.items[first].edge_next_ix = Some(first as u16);
    *edges = Table::of(vec![Edge {
        first_ix: first as u16,
        last_ix: first as u16,
        ..Edge::default()
    }]);
}
