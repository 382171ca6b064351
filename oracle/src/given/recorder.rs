//! The given Rust's recorder, as far as marks need it: it keeps what gave each edge its position.

use super::topo::{BlueProvenance, Dimension, Edge};

/// What last gave an edge its position; its number is its word in a job.
#[derive(Copy, Clone, PartialEq, Eq, Debug, Default)]
pub enum Mark {
    #[default]
    Nothing,
    BlueAnchor,
    Blue,
    Linked,
    Anchor,
    Stem,
    Adjusted,
    Bound,
    Serif,
    LowercaseM,
    Between,
    Spaced,
    RemainingAnchor,
}

impl Mark {
    /// Every mark, in the order of the numbers.
    pub const ALL: [Self; 13] = [
        Self::Nothing,
        Self::BlueAnchor,
        Self::Blue,
        Self::Linked,
        Self::Anchor,
        Self::Stem,
        Self::Adjusted,
        Self::Bound,
        Self::Serif,
        Self::LowercaseM,
        Self::Between,
        Self::Spaced,
        Self::RemainingAnchor,
    ];
}

/// What a call did so far.
#[derive(Default)]
pub struct HintsRecorder {
    /// The marks that it gave, each with its edge, the latest last.
    marks: Vec<(usize, Mark)>,
    /// How often the stem pass took its fallback: an edge placed by its linked edge, which is on a zone.
    pub fallbacks: usize,
    /// The remaining edge that became the anchor.
    pub anchor: Option<usize>,
}

impl HintsRecorder {
    /// Called by the given Rust where an edge got its position.
    #[allow(clippy::too_many_arguments)]
    pub fn record_edge(
        &mut self,
        _dim: Dimension,
        action: EdgeAction,
        edge_ix: usize,
        edge2_ix: Option<usize>,
        _edge3_ix: Option<usize>,
        _lower_ix: Option<usize>,
        _upper_ix: Option<usize>,
        _blue: Option<BlueProvenance>,
    ) {
        match action {
            EdgeAction::BlueAnchor => self.give(Mark::BlueAnchor, [edge_ix]),
            EdgeAction::Blue => self.give(Mark::Blue, [edge_ix]),
            EdgeAction::Adjust => self.give(Mark::Adjusted, [edge_ix]),
            EdgeAction::Stem => self.give(Mark::Stem, edge2_ix.into_iter().chain([edge_ix])),
            EdgeAction::Anchor => self.give(Mark::Anchor, [edge_ix]),
            // The base is named first.
            EdgeAction::Link => self.give(Mark::Linked, edge2_ix),
            EdgeAction::Bound => self.give(Mark::Bound, [edge_ix]),
            EdgeAction::Serif => self.give(Mark::Serif, [edge_ix]),
            EdgeAction::SerifLink1 => self.give(Mark::Between, [edge_ix]),
            EdgeAction::SerifLink2 => self.give(Mark::Spaced, [edge_ix]),
            EdgeAction::SerifAnchor => {
                self.anchor = Some(edge_ix);
                self.give(Mark::RemainingAnchor, [edge_ix]);
            }
        }
    }

    /// Called by the given Rust for a strong point before the first edge; points have no marks of this kind.
    pub fn record_ip_before(&mut self, _dim: Dimension, _point_ix: usize) {}

    /// The same behind the last edge.
    pub fn record_ip_after(&mut self, _dim: Dimension, _point_ix: usize) {}

    /// The same on an edge.
    pub fn record_ip_on(&mut self, _dim: Dimension, _point_ix: usize, _edge_ix: usize) {}

    /// The same between two edges.
    pub fn record_ip_between(&mut self, _dim: Dimension, _point: usize, _low: usize, _high: usize) {
    }

    /// Gives a mark to edges.
    pub fn give(&mut self, mark: Mark, edges: impl IntoIterator<Item = usize>) {
        self.marks.extend(edges.into_iter().map(|ix| (ix, mark)));
    }

    /// Writes the marks to their edges.
    pub fn write(self, edges: &mut [Edge]) {
        for (ix, mark) in self.marks {
            edges[ix].mark = mark;
        }
    }
}

/// What the given Rust says of an edge that it records.
pub enum EdgeAction {
    BlueAnchor,
    Blue,
    Adjust,
    Stem,
    Anchor,
    Link,
    Bound,
    Serif,
    SerifLink1,
    SerifLink2,
    SerifAnchor,
}
