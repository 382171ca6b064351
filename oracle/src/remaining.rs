//! Call 130: the edges that stems leave behind. The given Rust answers, behind refusals from the issue; the second writing below, from the sentences alone and in 64 bits, tells
//! when a position is beyond.

use crate::{
    calls::on_axis,
    given::hint_edges,
    job::{Edge, Mark, Remaining, ScriptGroup, Table, TopoFlags},
    limits::POSITION,
    refusals::{self, Answer},
};

/// Call 130: the edges are lent; hands back the anchor.
pub fn align_remaining_edges(edges: &mut Table<Edge>, given: &Remaining) -> Answer<Option<usize>> {
    refusals::remaining(edges, given)?;
    Ok(by_given_rust(edges, given))
}

/// What the given Rust makes of accepted edges, and the anchor: the one given, or the edge that it says became it.
pub fn by_given_rust(edges: &mut Table<Edge>, given: &Remaining) -> Option<usize> {
    let anchor = given.anchor.map(usize::from);
    on_axis(edges, given.dim, |axis, recorder| {
        let count = given.count.into();
        hint_edges::align_remaining_edges(axis, given.group, false, count, anchor, Some(recorder));
        anchor.or(recorder.anchor)
    })
}

/// An edge is nearer than this to the serif that it goes by, for Latin.
const NEAR: i64 = 80;
/// A neighbour holds an edge whose link is farther than this from the previous one.
const HELD: i64 = 16;
/// A pixel, and half of one.
const PIXEL: i64 = 64;
const HALF: i64 = 32;

/// An edge that is being placed.
#[derive(Copy, Clone)]
struct Place {
    fpos: i64,
    opos: i64,
    pos: i64,
    is_done: bool,
    mark: Mark,
    link: Option<usize>,
    serif: Option<usize>,
}

impl Place {
    /// An edge as it is given.
    fn of(edge: &Edge) -> Self {
        Self {
            fpos: edge.fpos.into(),
            opos: edge.opos.into(),
            pos: edge.pos.into(),
            is_done: edge.flags.contains(TopoFlags::DONE),
            mark: edge.mark,
            link: edge.link_ix.map(usize::from),
            serif: edge.serif_ix.map(usize::from),
        }
    }

    /// The edge with what the pass has written.
    fn written(&self, edge: &Edge) -> Edge {
        let mut edge = Edge {
            pos: self.pos as i32,
            mark: self.mark,
            ..*edge
        };
        if self.is_done {
            edge.flags |= TopoFlags::DONE;
        }
        edge
    }
}

/// The pass a second time: the edges and the anchor behind it, or none where a position that it gives is beyond.
pub fn placed(edges: &[Edge], given: &Remaining) -> Option<(Vec<Edge>, Option<usize>)> {
    let mut pass = Pass {
        places: edges.iter().map(Place::of).collect(),
        anchor: given.anchor.map(usize::from),
    };
    match given.group {
        ScriptGroup::Default => pass.latin()?,
        ScriptGroup::Cjk => pass.cjk(given.count)?,
    }
    let written = pass.places.iter().zip(edges);
    let edges = written.map(|(place, edge)| place.written(edge)).collect();
    Some((edges, pass.anchor))
}

/// What the pass has done so far.
struct Pass {
    places: Vec<Place>,
    anchor: Option<usize>,
}

impl Pass {
    /// Latin: one edge behind the other, each placed, done and held to its neighbours.
    fn latin(&mut self) -> Option<()> {
        for ix in 0..self.places.len() {
            if self.places[ix].is_done {
                continue;
            }
            let (pos, mark) = self.latin_place(ix);
            self.give(ix, pos, mark)?;
            self.places[ix].is_done = true;
            self.hold_to_previous(ix);
            self.hold_to_next(ix);
        }
        Some(())
    }

    /// Where a Latin edge goes, by the first of four ways that it can.
    fn latin_place(&mut self, ix: usize) -> (i64, Mark) {
        let edge = self.places[ix];
        let serif = edge.serif.map(|ix| self.places[ix]);
        if let Some(serif) = serif.filter(|serif| (serif.opos - edge.opos).abs() < NEAR) {
            return (shifted(&edge, &serif), Mark::Serif);
        }
        let Some(anchor) = self.anchor else {
            self.anchor = Some(ix);
            let rounded = (edge.opos + HALF).div_euclid(PIXEL) * PIXEL;
            return (rounded, Mark::RemainingAnchor);
        };
        if let [Some(before), Some(behind)] = self.nearest_done(ix) {
            return (between(&edge, &before, &behind, |e| e.opos), Mark::Between);
        }
        let anchor = self.places[anchor];
        let distance = (edge.opos - anchor.opos + 16).div_euclid(32) * 32;
        (anchor.pos + distance, Mark::Spaced)
    }

    /// CJK: the edges with a serif first, which are done then; the others, where the count is not used up, by edges that are.
    fn cjk(&mut self, count: u16) -> Option<()> {
        let mut left = count;
        for ix in 0..self.places.len() {
            let edge = self.places[ix];
            if let Some(serif) = edge.serif.filter(|_| !edge.is_done) {
                self.give(ix, shifted(&edge, &self.places[serif]), Mark::Serif)?;
                self.places[ix].is_done = true;
                left = left.saturating_sub(1);
            }
        }
        for ix in (0..self.places.len()).filter(|_| left > 0) {
            let edge = self.places[ix];
            if edge.is_done {
                continue;
            }
            match self.nearest_done(ix) {
                [None, None] => {}
                [Some(only), None] | [None, Some(only)] => {
                    self.give(ix, shifted(&edge, &only), Mark::Serif)?;
                }
                [Some(before), Some(behind)] => {
                    let pos = between(&edge, &before, &behind, |e| e.fpos);
                    self.give(ix, pos, Mark::Between)?;
                }
            }
        }
        Some(())
    }

    /// Gives an edge a position, unless that is beyond.
    fn give(&mut self, ix: usize, pos: i64, mark: Mark) -> Option<()> {
        let within = i32::try_from(pos).is_ok_and(|pos| POSITION.contains(&pos));
        (self.places[ix].pos, self.places[ix].mark) = (pos, mark);
        within.then_some(())
    }

    /// The nearest done edges before and behind an edge.
    fn nearest_done(&self, ix: usize) -> [Option<Place>; 2] {
        let is_done = |place: &&Place| place.is_done;
        let before = self.places[..ix].iter().rev().find(is_done);
        let behind = self.places[ix + 1..].iter().find(is_done);
        [before.copied(), behind.copied()]
    }

    /// Holds an edge that is below the previous one to it.
    fn hold_to_previous(&mut self, ix: usize) {
        if ix > 0 && self.places[ix].pos < self.places[ix - 1].pos {
            self.hold(ix, ix - 1);
        }
    }

    /// Holds an edge that has a previous one, and is above the next one, which is done, to that.
    fn hold_to_next(&mut self, ix: usize) {
        let next = self.places.get(ix + 1).filter(|next| next.is_done);
        if ix > 0 && next.is_some_and(|next| self.places[ix].pos > next.pos) {
            self.hold(ix, ix + 1);
        }
    }

    /// Brings an edge to where a neighbour is, where it has a link that is not near the previous edge.
    fn hold(&mut self, ix: usize, neighbour: usize) {
        let link = self.places[ix].link.map(|link| self.places[link].pos);
        let previous = self.places[ix - 1].pos;
        if link.is_some_and(|link| (link - previous).abs() > HELD) {
            let pos = self.places[neighbour].pos;
            (self.places[ix].pos, self.places[ix].mark) = (pos, Mark::Bound);
        }
    }
}

/// As far from a base as it was.
fn shifted(edge: &Place, base: &Place) -> i64 {
    base.pos + edge.opos - base.opos
}

/// Between two edges as it was by some measure; at the first one where these were at one place.
fn between(edge: &Place, before: &Place, behind: &Place, at: fn(&Place) -> i64) -> i64 {
    let span = at(behind) - at(before);
    if span == 0 {
        return before.pos;
    }
    before.pos + nearest((at(edge) - at(before)) * (behind.pos - before.pos), span)
}

/// A quotient to the nearest, halves away from zero.
fn nearest(dividend: i64, divisor: i64) -> i64 {
    let size = (2 * dividend.abs() + divisor.abs()) / (2 * divisor.abs());
    size * dividend.signum() * divisor.signum()
}
