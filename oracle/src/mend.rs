//! Call 121: an axis that was saved with indices of records that are gone, or with rings that do not close, mended by request #107 alone.

use crate::{
    job::{Edge, Segment, Table},
    refusals::{self, Answer},
};
use std::collections::BTreeSet;

/// A table of an axis; its number is its word in an answer.
#[derive(Copy, Clone, PartialEq, Eq, Debug)]
pub enum Side {
    Segments,
    Edges,
}

/// A field that mending may alter; its number is its word in an answer.
#[derive(Copy, Clone, PartialEq, Eq, Debug)]
pub enum Field {
    Link,
    Serif,
    Next,
    First,
    Last,
}

/// A field that was altered, with its old and its new value.
#[derive(Copy, Clone, PartialEq, Eq, Debug)]
pub struct Alteration {
    pub side: Side,
    pub index: usize,
    pub field: Field,
    pub old: Option<u16>,
    pub new: Option<u16>,
}

/// Call 121: both tables are lent; hands back what was altered.
pub fn mend(segments: &mut Table<Segment>, edges: &mut Table<Edge>) -> Answer<Vec<Alteration>> {
    refusals::mend(segments, edges)?;
    let old = (segments.items.clone(), edges.items.clone());
    for segment in &mut segments.items {
        segment.link_ix = within(segment.link_ix, old.0.len());
        segment.serif_ix = within(segment.serif_ix, old.0.len());
        if segment.edge_ix.is_none() {
            segment.edge_next_ix = within(segment.edge_next_ix, old.0.len());
        }
    }
    for (ix, edge) in edges.items.iter_mut().enumerate() {
        edge.link_ix = within(edge.link_ix, old.1.len());
        edge.serif_ix = within(edge.serif_ix, old.1.len());
        if !is_sound(&old.0, &old.1, ix) {
            rebuild(&mut segments.items, edge, ix);
        }
    }
    Ok(differences(&old, (&segments.items, &edges.items)))
}

/// An index into a list of this length, or none where it is beyond.
fn within(index: Option<u16>, length: usize) -> Option<u16> {
    index.filter(|ix| usize::from(*ix) < length)
}

/// Whether the ring of an edge is sound: following it from the first segment visits each segment of that edge once, no other, and ends at the last, whose next is
/// the first.
pub fn is_sound(segments: &[Segment], edges: &[Edge], ix: usize) -> bool {
    let Edge {
        first_ix, last_ix, ..
    } = edges[ix];
    let mut visited = BTreeSet::new();
    let mut at = first_ix;
    // ends: every turn visits another segment
    while usize::from(at) < segments.len() && visited.insert(usize::from(at)) {
        let next = segments[usize::from(at)].edge_next_ix;
        if at == last_ix {
            return next == Some(first_ix) && visited.into_iter().eq(members(segments, ix));
        }
        let Some(next) = next else {
            return false;
        };
        at = next;
    }
    false
}

/// The segments of an edge, in rising order.
fn members(segments: &[Segment], edge: usize) -> Vec<usize> {
    let mut sorted: Vec<(Option<u16>, usize)> =
        segments.iter().map(|s| s.edge_ix).zip(0..).collect();
    sorted.sort_unstable();
    let of_edge = sorted
        .into_iter()
        .filter(|(ix, _)| ix.map(usize::from) == Some(edge));
    of_edge.map(|(_, segment)| segment).collect()
}

/// Makes the ring of an edge anew, in rising order, the last leading back to the first.
fn rebuild(segments: &mut [Segment], edge: &mut Edge, ix: usize) {
    let ring = members(segments, ix);
    for (place, segment) in ring.iter().enumerate() {
        segments[*segment].edge_next_ix = Some(ring[(place + 1) % ring.len()] as u16);
    }
    edge.first_ix = ring[0] as u16;
    edge.last_ix = ring[ring.len() - 1] as u16;
}

/// Every field in which two axes differ: segments before edges, by index, and in a record link, serif, then next or first and last.
fn differences(old: &(Vec<Segment>, Vec<Edge>), new: (&[Segment], &[Edge])) -> Vec<Alteration> {
    let segments = old.0.iter().zip(new.0).enumerate();
    let edges = old.1.iter().zip(new.1).enumerate();
    let of_segments = segments.flat_map(|(index, (old, new))| {
        [
            (Field::Link, old.link_ix, new.link_ix),
            (Field::Serif, old.serif_ix, new.serif_ix),
            (Field::Next, old.edge_next_ix, new.edge_next_ix),
        ]
        .map(|pair| (Side::Segments, index, pair))
    });
    let of_edges = edges.flat_map(|(index, (old, new))| {
        [
            (Field::Link, old.link_ix, new.link_ix),
            (Field::Serif, old.serif_ix, new.serif_ix),
            (Field::First, Some(old.first_ix), Some(new.first_ix)),
            (Field::Last, Some(old.last_ix), Some(new.last_ix)),
        ]
        .map(|pair| (Side::Edges, index, pair))
    });
    let altered = of_segments.chain(of_edges);
    altered
        .filter(|(_, _, (_, old, new))| old != new)
        .map(|(side, index, (field, old, new))| Alteration {
            side,
            index,
            field,
            old,
            new,
        })
        .collect()
}
