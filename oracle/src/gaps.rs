//! Call 127, the guard: has fitting lost a gap or a stem, as a display shows it? Written from its issue's sentences alone; the given Rust has no such call.

use crate::{
    job::{Edge, Table, TopoFlags},
    refusals::{self, Answer},
};

/// Two edges that count, with none that counts between them in the table.
#[derive(Copy, Clone, PartialEq, Debug)]
pub struct Pair {
    pub first: usize,
    pub second: usize,
    /// How far the second was behind the first, by `opos`.
    pub before: i32,
    /// How far it is now, by `pos`.
    pub after: i32,
    /// Whether one names the other by link; else the pair is a gap.
    pub is_stem: bool,
    /// Whether a pixel row is now between the two.
    pub has_row: bool,
}

impl Pair {
    /// The pair that these two edges of a table are.
    fn of(edges: &[Edge], first: usize, second: usize) -> Self {
        let (low, high) = (&edges[first], &edges[second]);
        Self {
            first,
            second,
            before: high.opos - low.opos,
            after: high.pos - low.pos,
            is_stem: names(low, second) || names(high, first),
            has_row: has_row(low.pos, high.pos),
        }
    }

    /// Whether it is now turned, or without a row though it was above 0 wide; a gap also has to have been at least so wide.
    fn is_lost(&self, least: i32) -> bool {
        let turned = self.after < 0;
        let hidden = !self.has_row && self.before > 0;
        (self.is_stem || self.before >= least) && (turned || hidden)
    }
}

/// Whether the link of an edge is this edge.
fn names(edge: &Edge, other: usize) -> bool {
    edge.link_ix.map(usize::from) == Some(other)
}

/// Whether a pixel row is between two positions: a centre at the first or above it, and below the second.
fn has_row(from: i32, to: i32) -> bool {
    centre(from) < to
}

/// The lowest centre of a pixel at a position or above it: centres leave 32 by 64.
fn centre(position: i32) -> i32 {
    position + (32 - position).rem_euclid(64)
}

/// What the guard hands back.
#[derive(Copy, Clone, PartialEq, Default, Debug)]
pub struct Lost {
    /// How many gaps are lost.
    pub gaps: usize,
    /// The first pair of either kind that is.
    pub first: Option<Pair>,
    /// How many stems are lost.
    pub stems: usize,
    /// How many edges are not done, and so not guarded.
    pub not_done: usize,
}

/// Call 127: hands back what is lost of the edges that count.
pub fn lost_gaps(edges: &Table<Edge>, least: i32, linked: bool) -> Answer<Lost> {
    refusals::lost_gaps(edges, least)?;
    let pairs = pairs(&edges.items, linked).into_iter();
    let lost: Vec<Pair> = pairs.filter(|pair| pair.is_lost(least)).collect();
    Ok(Lost {
        gaps: lost.iter().filter(|pair| !pair.is_stem).count(),
        first: lost.first().copied(),
        stems: lost.iter().filter(|pair| pair.is_stem).count(),
        not_done: edges.items.iter().filter(|edge| !is_done(edge)).count(),
    })
}

/// The pairs: every edge that counts but the last, with the next one that does.
fn pairs(edges: &[Edge], linked: bool) -> Vec<Pair> {
    let counted: Vec<usize> = (0..edges.len())
        .filter(|ix| counts(&edges[*ix], linked))
        .collect();
    let pair = |two: &[usize]| Pair::of(edges, two[0], two[1]);
    counted.windows(2).map(pair).collect()
}

/// Whether an edge counts: it is done, and where links are asked for it has one.
fn counts(edge: &Edge, linked: bool) -> bool {
    is_done(edge) && (!linked || edge.link_ix.is_some())
}

/// Whether an edge is done.
fn is_done(edge: &Edge) -> bool {
    edge.flags.contains(TopoFlags::DONE)
}
