//! Call 122: blues and then stems on the same edges, by request #108. The two given calls run in a row, behind refusals written from the request.

use crate::{
    calls,
    job::{Edge, Joined, Stems, Table},
    refusals::{self, Answer},
};

/// What the stem pass hands back, and how often it took the fallback for an edge whose linked edge is on a zone.
#[derive(Copy, Clone, PartialEq, Debug)]
pub struct Fitted {
    pub count: usize,
    pub anchor: Option<usize>,
    pub fallbacks: usize,
}

/// Call 122: the edges are lent; hands back the stem pass' count and the anchor after the stems.
pub fn align_blues_and_stems(edges: &mut Table<Edge>, given: &Joined) -> Answer<Fitted> {
    refusals::joined(edges, given)?;
    let anchor = calls::align_edges_to_blues(edges, given.dim, given.group, &given.rule)?;
    let stems = Stems {
        dim: given.dim,
        group: given.group,
        stem_adjust: given.stem_adjust,
        top_to_bottom: given.top_to_bottom,
        anchor: anchor.map(|ix| ix as u16),
        rule: given.rule.clone(),
    };
    let fitted = calls::fitted_stems(edges, &stems);
    Ok(fitted.expect("the stem pass accepts what blues leave"))
}

/// Whether some edge has a zone.
pub fn has_zone(edges: &Table<Edge>) -> bool {
    edges.items.iter().any(|edge| edge.blue_edge.is_some())
}
