//! Call 123: of an axis the segments that serve its edges, by request #113 alone.

use crate::{
    job::{Edge, Segment, Table},
    refusals::{self, Answer},
};
use std::collections::{BTreeMap, BTreeSet};

/// Call 123: both tables are lent; hands back the places that were freed behind the kept segments, as they stand.
pub fn pack(segments: &mut Table<Segment>, edges: &mut Table<Edge>) -> Answer<Vec<Segment>> {
    refusals::pack(segments, edges)?;
    let numbers: BTreeMap<u16, u16> = kept(&segments.items).into_iter().zip(0..).collect();
    let renumbered = |ix: Option<u16>| ix.map(|ix| numbers[&ix]);
    let moved = |ix: &u16| {
        let segment = segments.items[usize::from(*ix)];
        Segment {
            link_ix: renumbered(segment.link_ix),
            serif_ix: renumbered(segment.serif_ix),
            edge_next_ix: renumbered(segment.edge_ix.and(segment.edge_next_ix)),
            ..segment
        }
    };
    let freed = segments.count - numbers.len();
    *segments = Table::of(numbers.keys().map(moved).collect());
    for edge in &mut edges.items {
        edge.first_ix = numbers[&edge.first_ix];
        edge.last_ix = numbers[&edge.last_ix];
    }
    Ok(vec![Segment::default(); freed])
}

/// The segments that belong to an edge, and those reached from kept ones by links or serifs: a sweep over the kept ones, until one adds nothing.
pub fn kept(segments: &[Segment]) -> BTreeSet<u16> {
    let on_edges = (0..).zip(segments).filter(|(_, s)| s.edge_ix.is_some());
    let mut kept: BTreeSet<u16> = on_edges.map(|(ix, _)| ix).collect();
    loop {
        let names = |ix: &u16| {
            let segment = segments[usize::from(*ix)];
            [segment.link_ix, segment.serif_ix]
        };
        let reached: BTreeSet<u16> = kept.iter().flat_map(names).flatten().collect();
        if reached.is_subset(&kept) {
            return kept;
        }
        kept.extend(reached);
    }
}
