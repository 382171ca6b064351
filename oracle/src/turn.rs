//! Call 124: an axis that was fitted top to bottom, turned over, written from request #114 alone.

use crate::{
    job::{Edge, Segment, Table},
    refusals::{self, Answer},
};

/// Call 124: both tables are lent.
pub fn turn_over(segments: &mut Table<Segment>, edges: &mut Table<Edge>) -> Answer<()> {
    refusals::turn_over(segments, edges)?;
    let last = (edges.count as u16).saturating_sub(1);
    let turned = |ix: Option<u16>| ix.map(|ix| last - ix);
    edges.items.reverse();
    for edge in &mut edges.items {
        edge.link_ix = turned(edge.link_ix);
        edge.serif_ix = turned(edge.serif_ix);
    }
    for segment in &mut segments.items {
        segment.edge_ix = turned(segment.edge_ix);
    }
    Ok(())
}
