//! Edges for the pass over remaining edges: serifs about 80 units away, done ones here and there, anchors, counts of every size, and positions that leave every range.

use super::{blues_and_stems, dimension, edges, group, named, Random};
use crate::{
    job::{Edge, Job, Remaining, ScriptGroup, Table, TopoFlags},
    joined,
    limits::{COORDINATE, EDGES, POSITION},
};

/// A job of remaining edges: on what blues and stems leave, on edges that are made up for it, or on any.
pub fn job(small: bool, random: &mut Random) -> Job {
    let edges = match random.below(8) {
        0 => edges::edges(small, random),
        1..=2 => return behind_stems(small, random),
        3 => steep(random),
        _ => loose(small, random),
    };
    let given = Remaining {
        dim: dimension(random),
        group: group(random),
        count: count(&edges, random),
        anchor: anchor(&edges, random),
    };
    Job::Remaining(Table::of(edges), given)
}

/// What blues and stems leave, with their count and anchor, or, once in four times, others; one edge in three has lost its link, and names a serif.
fn behind_stems(small: bool, random: &mut Random) -> Job {
    let Job::Joined(mut table, mut joined) = blues_and_stems(small, random) else {
        unreachable!("blues and stems make such a job");
    };
    let many = table.count;
    for edge in &mut table.items {
        if random.once_in(3) {
            edge.link_ix = None;
            edge.serif_ix = random.coin().then(|| named(many, random));
        }
        if joined.group == ScriptGroup::Default {
            edge.blue_edge = None;
        }
    }
    joined.top_to_bottom = false;
    let fitted = joined::align_blues_and_stems(&mut table, &joined).ok();
    let mut given = Remaining {
        dim: joined.dim,
        group: joined.group,
        count: fitted.map_or(0, |fitted| fitted.count as u16),
        anchor: fitted.and_then(|fitted| fitted.anchor.map(|ix| ix as u16)),
    };
    if random.once_in(4) {
        given.count = count(&table.items, random);
        given.anchor = anchor(&table.items, random);
    }
    Job::Remaining(table, given)
}

/// Edges one behind the other, some of them done, with serifs and links.
fn loose(small: bool, random: &mut Random) -> Vec<Edge> {
    let many = match random.below(60) {
        0 => random.pick(&[EDGES - 1, EDGES]),
        _ if small => random.below(6) + 1,
        _ => random.below(15) + 2,
    };
    let mut edges = vec![Edge::default(); many];
    edges::dress(&mut edges, random);
    let (done, serifs) = (random.pick(&[0, 1, 2, 3]), random.pick(&[2, 3, 6]));
    let gap = random.pick(&[1, 3, 20, 45, 90, 200]);
    let falls = random.pick(&[0, 0, 0, 1, gap]);
    let moves = random.pick(&[0, 1, 20, 64, 300]);
    let units = random.pick(&[1, 1, 2, 3]);
    let mut at = random.between(-300, 300);
    for ix in 0..many {
        at += random.between(-falls, gap);
        let edge = &mut edges[ix];
        edge.opos = at;
        edge.fpos = (at / units) as i16;
        edge.pos = at + random.between(-moves, moves);
        edge.flags &= !TopoFlags::DONE;
        if random.below(4) < done {
            edge.flags |= TopoFlags::DONE;
        }
        edge.serif_ix = None;
        edge.link_ix = edges::near_link(ix, many, random);
        if random.once_in(serifs) {
            serif(&mut edges, ix, random);
        }
    }
    edges
}

/// Gives an edge a serif, near by or any, mostly about as far as one may be.
fn serif(edges: &mut [Edge], ix: usize, random: &mut Random) {
    let near = (ix + random.below(5)).saturating_sub(2);
    let any = random.below(edges.len());
    let serif = random.pick(&[near, near, any]);
    let serif = serif.min(edges.len() - 1);
    edges[ix].serif_ix = Some(serif as u16);
    if serif < ix && random.coin() {
        let away = random.pick(&[79, 80, 81, -79, -80, -81, 0, 1]);
        edges[ix].opos = edges[serif].opos + away;
    }
}

/// A few edges that are close by `opos` or `fpos`, and about as far apart as positions go.
fn steep(random: &mut Random) -> Vec<Edge> {
    let many = random.below(4) + 1;
    let mut edges = vec![Edge::default(); many];
    edges::dress(&mut edges, random);
    for (ix, edge) in edges.iter_mut().enumerate() {
        let step = random.pick(&[0, 0, 1, 1, 2, 15, 16, 79, 80]);
        edge.opos = match random.below(8) {
            0 => random.pick(&[*COORDINATE.start(), *COORDINATE.end()]),
            _ => step + ix as i32,
        };
        edge.fpos = match random.below(8) {
            0 => random.pick(&[-32_768, 32_767]),
            _ => random.between(0, 3) as i16,
        };
        let end = random.pick(&[*POSITION.start(), *POSITION.end()]);
        let inward = random.pick(&[0, 0, 1, 2, 16, 32, 80]);
        edge.pos = match random.below(4) {
            0 => random.between(-9, 9),
            _ => end - end.signum() * inward,
        };
    }
    edges
}

/// A count: as many as are left, fewer, more, none or any.
fn count(edges: &[Edge], random: &mut Random) -> u16 {
    let left = edges.iter().filter(|edge| !is_done(edge)).count() as u16;
    match random.below(8) {
        0 => 0,
        1 => left.saturating_sub(1),
        2 => left + 1,
        3 => random.pick(&[1, 2, 65_535]),
        _ => left,
    }
}

/// An anchor: none, one that is done, or any.
fn anchor(edges: &[Edge], random: &mut Random) -> Option<u16> {
    let any = named(edges.len(), random);
    let done = edges.iter().position(is_done).map(|ix| ix as u16);
    random.pick(&[None, done, done, (!edges.is_empty()).then_some(any)])
}

/// Whether an edge is done.
fn is_done(edge: &Edge) -> bool {
    edge.flags.contains(TopoFlags::DONE)
}
