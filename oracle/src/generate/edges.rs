//! Edges for fitting and for the lowercase m.

use super::{group, segments, Random};
use crate::{
    calls,
    job::{Direction, Edge, Mark, ScaledWidth, ScriptGroup, Table, TopoFlags, WidthRule},
    limits::{COORDINATE, OLD_COORDINATE, POSITION},
};

/// The rounds in which edges get flags, blues and links, and how often each.
struct Chances {
    done: usize,
    blue: usize,
    links: usize,
}

/// Edges within the limits.
pub fn edges(small: bool, random: &mut Random) -> Vec<Edge> {
    let mut edges = if !small && random.once_in(3) {
        built(random)
    } else {
        let count = if small {
            random.below(5) + 1
        } else {
            random.below(14) + 2
        };
        placed(count, random)
    };
    dress(&mut edges, random);
    edges
}

/// Edges that linking and building make of made-up segments.
fn built(random: &mut Random) -> Vec<Edge> {
    let mut given = segments::building(random);
    let most = random.pick(&[32_000, 262_144]);
    given.scale = random.between(1_000, most);
    given.top_to_bottom = false;
    let mut made = segments::linked(&mut given, random);
    let mut edges = Table::of(Vec::new());
    match calls::compute_edges(&mut made, &mut edges, &given) {
        Ok(()) if !edges.items.is_empty() => edges.items,
        _ => placed(made.count, random),
    }
}

/// Where edges begin: this far from 0 at most, or, once in four times, anywhere.
fn start(near: i32, random: &mut Random) -> i32 {
    if random.once_in(4) {
        return opos(random).clamp(-FAR, FAR);
    }
    random.between(-near, near)
}

/// How far from 0 a list of edges begins at most, so that its last one is within the limit.
const FAR: i32 = 60_000;

/// A scaled position, in the old range or to the limit.
pub fn opos(random: &mut Random) -> i32 {
    let most = random.pick(&[*OLD_COORDINATE.end(), *COORDINATE.end()]);
    random.between(-most, most)
}

/// Edges at positions, without links.
fn placed(count: usize, random: &mut Random) -> Vec<Edge> {
    let (kind, gap) = (random.below(5), random.pick(&[2, 17, 64, 100, 300]));
    let mut at = start(200, random);
    let mut edges: Vec<Edge> = Vec::new();
    for _ in 0..count {
        at = match kind {
            0 => random.between(-gap, gap),
            1 => opos(random),
            _ => (at + random.between(0, gap)).min(*COORDINATE.end()),
        };
        edges.push(Edge {
            fpos: (at * random.pick(&[1, 1, 1, 2])).clamp(-32_768, 32_767) as i16,
            opos: at,
            pos: at,
            dir: random.pick(&[Direction::Up, Direction::Down, Direction::None]),
            first_ix: random.below(65_536) as u16,
            last_ix: random.below(65_536) as u16,
            ..Edge::default()
        });
    }
    edges
}

/// Moves edges and gives flags, blues, links, serifs and marks.
pub fn dress(edges: &mut [Edge], random: &mut Random) {
    let chances = Chances {
        done: random.pick(&[2, 4, 100]),
        blue: random.pick(&[2, 4, 100]),
        links: random.below(4),
    };
    let moves = random.pick(&[0, 1, 18, 64, 300, 16_700_000]);
    let count = edges.len();
    for (ix, edge) in edges.iter_mut().enumerate() {
        if random.coin() {
            edge.pos += random.between(-moves, moves);
        }
        edge.flags = flags(chances.done, random);
        if random.once_in(chances.blue) {
            edge.blue_edge = Some(zone(edge.opos, random));
        }
        edge.link_ix = link(ix, count, chances.links, random);
        edge.serif_ix = random.once_in(4).then(|| random.below(count) as u16);
        edge.mark = random.pick(&Mark::ALL);
    }
}

/// Flags, done once in so many times.
fn flags(done: usize, random: &mut Random) -> TopoFlags {
    let mut flags = TopoFlags::NORMAL;
    if random.coin() {
        flags |= TopoFlags::ROUND;
    }
    if random.once_in(6) {
        flags |= TopoFlags::SERIF;
    }
    if random.once_in(done) {
        flags |= TopoFlags::DONE;
    }
    if random.once_in(3) {
        flags |= TopoFlags::NEUTRAL;
    }
    flags
}

/// A link: 0 and 1 to the partner of a pair, 2 mostly so, 3 to any.
fn link(ix: usize, count: usize, kind: usize, random: &mut Random) -> Option<u16> {
    if random.once_in(6) {
        return None;
    }
    if kind == 3 || (kind == 2 && random.once_in(3)) {
        return Some(random.below(count) as u16);
    }
    Some((ix ^ 1).min(count - 1) as u16)
}

/// A few edges whose first two are a stem about a pixel wide.
pub fn stem(random: &mut Random) -> Vec<Edge> {
    let count = random.below(2) + 2;
    let mut edges = placed(count, random);
    dress(&mut edges, random);
    edges[0].opos = start(128, random);
    edges[1].opos = edges[0].opos + random.between(-20, 150);
    edges
}

/// Four edges: the second about where its neighbours are, the last, mostly its link, about as far from the first as a bound asks.
pub fn neighbours(random: &mut Random) -> Vec<Edge> {
    const NEAR: [i32; 5] = [-20, -1, 0, 1, 20];
    let mut edges = placed(4, random);
    dress(&mut edges, random);
    edges[0].pos = random.between(-300, 300);
    edges[1].pos = edges[0].pos + random.pick(&NEAR);
    edges[2].pos = edges[1].pos + random.pick(&NEAR);
    edges[3].pos = edges[0].pos + random.pick(&[-17, -16, -15, 15, 16, 17]);
    if random.coin() {
        edges[2].flags |= TopoFlags::DONE;
    }
    if random.below(4) > 0 {
        edges[1].link_ix = Some(3);
    }
    edges
}

/// Stems one behind the other, of all the widths that are fitted differently.
pub fn stems(random: &mut Random) -> Vec<Edge> {
    let pairs = random.below(4) + 1;
    let mut edges = placed(2 * pairs, random);
    dress(&mut edges, random);
    let moves = random.pick(&[0, 0, 20, 200]);
    let mut at = start(200, random);
    for pair in edges.chunks_exact_mut(2) {
        let (least, most) =
            random.pick(&[(0, 64), (60, 70), (65, 95), (90, 100), (97, 300), (-70, 0)]);
        pair[0].opos = at;
        pair[1].opos = at + random.between(least, most);
        at = pair[1].opos + random.between(-10, 120);
        for edge in pair {
            edge.pos = edge.opos + random.between(-moves, moves);
        }
    }
    edges
}

/// Edges for blues and stems in a row: stems one behind the other or any edges, one in a few on a zone near it.
pub fn zoned(small: bool, random: &mut Random) -> Vec<Edge> {
    let mut edges = if random.once_in(3) {
        edges(small, random)
    } else {
        stems(random)
    };
    let chance = random.pick(&[2, 3, 5]);
    for edge in &mut edges {
        if random.once_in(chance) {
            edge.blue_edge = Some(zone(edge.opos, random));
        }
    }
    edges
}

/// A zone near a position: at a pixel, or a unit beside it.
pub fn zone(opos: i32, random: &mut Random) -> ScaledWidth {
    let near = opos / 64 * 64 + random.between(-1, 1);
    let fitted = near.clamp(*COORDINATE.start(), *COORDINATE.end());
    ScaledWidth { fitted }
}

/// Edges as a fitting may leave them, some or few of them done: gaps and stems between these are kept, narrowed below a pixel row, closed, turned, or were none.
pub fn gapped(small: bool, random: &mut Random) -> Vec<Edge> {
    let mut edges = edges(small, random);
    let done = random.pick(&[1, 1, 2, 4]);
    let gap = random.pick(&[1, 3, 40, 100]);
    let falls = random.pick(&[0, 0, 1, gap]);
    let strays = random.pick(&[0, 1, gap, 2 * gap, 8_000_000]);
    let near = random.coin();
    let start = start(500, random);
    let count = edges.len();
    let mut before = Edge {
        opos: start,
        pos: start,
        ..Edge::default()
    };
    for (ix, edge) in edges.iter_mut().enumerate() {
        edge.flags = flags(done, random);
        edge.opos = before.opos + random.between(-falls, gap);
        edge.pos = match random.below(8) {
            0 => before.pos,
            1 => before.pos + random.between(-1, 1),
            2 => before.pos - random.between(0, gap),
            3 => before.pos + random.between(0, 70),
            4 => about_a_centre(before.pos, random),
            _ => edge.opos + random.between(-strays, strays),
        };
        if near {
            edge.link_ix = near_link(ix, count, random);
        }
        before = *edge;
    }
    if random.once_in(4) {
        to_an_end(&mut edges, random);
    }
    edges
}

/// A position at a centre of a pixel near another one, or a unit beside it.
fn about_a_centre(pos: i32, random: &mut Random) -> i32 {
    let pixel = pos.div_euclid(64) + random.between(0, 1);
    64 * pixel + 32 + random.between(-1, 1)
}

/// A link to a neighbour or the one behind that, on either side, to the edge itself, to any edge, or none.
pub fn near_link(ix: usize, count: usize, random: &mut Random) -> Option<u16> {
    let link = match random.below(8) {
        0..=1 => return None,
        2 => random.below(count),
        3 => ix,
        _ => (ix + random.pick(&[0, 1, 1, 3, 3, 4])).saturating_sub(2),
    };
    Some(link.min(count - 1) as u16)
}

/// Moves all positions so that the highest or the lowest is at the end of what a position may be.
fn to_an_end(edges: &mut [Edge], random: &mut Random) {
    let positions = || edges.iter().map(|edge| edge.pos);
    let (lowest, highest) = (positions().min(), positions().max());
    let moved = if random.coin() {
        POSITION.start() - lowest.unwrap_or(0)
    } else {
        POSITION.end() - highest.unwrap_or(0)
    };
    for edge in edges {
        edge.pos += moved;
    }
}

/// What an edge table may hold before building: anything.
pub fn old_table(random: &mut Random) -> Vec<Edge> {
    if random.coin() {
        return Vec::new();
    }
    let mut edges = edges(true, random);
    for edge in &mut edges {
        edge.pos = random.bits() as i32;
        edge.opos = random.bits() as i32;
        edge.link_ix = Some(random.below(65_536) as u16);
    }
    edges
}

/// A width rule.
pub fn rule(random: &mut Random) -> WidthRule {
    let count = random.pick(&[0, 1, 2, 3, 5, 16]);
    let mut standards = Vec::new();
    let mut at = random.pick(&[0, 20, 60]);
    for _ in 0..count {
        at += random.between(1, 60);
        standards.push(at);
    }
    if random.coin() {
        return WidthRule::Snap(standards);
    }
    if random.once_in(4) {
        standards.push(-1);
    }
    WidthRule::Keep(standards)
}

/// Six or twelve edges whose stems are about equally far apart.
pub fn lowercase_m(random: &mut Random) -> (Vec<Edge>, ScriptGroup) {
    let (count, stems) = random.pick(&[(6, [0, 2, 4]), (12, [1, 5, 9])]);
    let mut edges = placed(count, random);
    dress(&mut edges, random);
    let group = group(random);
    let (start, distance) = (start(300, random), random.between(-300, 300));
    edges[stems[0]].opos = start;
    edges[stems[1]].opos = start + distance;
    edges[stems[2]].opos = start + 2 * distance + random.between(-9, 9);
    for stem in stems {
        if random.below(8) > 0 {
            edges[stem].link_ix = Some(stem as u16 + 1);
        }
    }
    if group == ScriptGroup::Default && random.coin() {
        edges[stems[2]].link_ix = random
            .pick(&[None, Some(stems[2]), Some(count - 1), Some(count - 4)])
            .map(|ix| ix as u16);
    }
    (edges, group)
}
