//! The edges that are timed, as words of a job.

use khsaemudol::EDGE_WORDS;
use oracle::generate::Random;

/// The flag of a done edge.
const DONE: i32 = 4;

/// The words of an edge at its original position, with flags, a blue zone or none, and its link; nothing gave it its position yet.
fn edge(opos: i32, pos: i32, round: bool, zone: Option<i32>, link: usize) -> [i32; EDGE_WORDS] {
    let (present, fitted) = zone.map_or((0, 0), |fitted| (1, fitted));
    let round = i32::from(round);
    let link = link as i32;
    [
        opos, opos, pos, round, 0, present, fitted, link, -1, 0, 0, 0,
    ]
}

/// Rising stems, each two edges linked to each other.
pub fn stems(count: usize, random: &mut Random) -> Vec<i32> {
    paired(count, random, |_, _| None)
}

/// The same, one edge in four on a blue zone at the nearest pixel.
pub fn on_zones(count: usize, random: &mut Random) -> Vec<i32> {
    paired(count, random, |at, random| {
        random.once_in(4).then_some((at + 32) & !63)
    })
}

/// Rising stems, every edge at the nearest pixel, and done.
pub fn placed(count: usize, random: &mut Random) -> Vec<i32> {
    let mut words = stems(count, random);
    words.chunks_exact_mut(EDGE_WORDS).for_each(place);
    words
}

/// Puts an edge at the nearest pixel, and makes it done.
fn place(edge: &mut [i32]) {
    edge[2] = (edge[1] + 32) & !63;
    edge[3] |= DONE;
}

/// Stems that are placed, and behind each of them two edges that are left: one whose serif is the stem's second edge, and one that has nothing.
pub fn remaining(count: usize, random: &mut Random) -> Vec<i32> {
    let mut words = stems(count, random);
    for (ix, edge) in words.chunks_exact_mut(EDGE_WORDS).enumerate() {
        match ix % 4 {
            0 | 1 => place(edge),
            2 => (edge[7], edge[8]) = (-1, ix as i32 - 1),
            _ => edge[7] = -1,
        }
    }
    words
}

/// Rising edges in pairs, each on the zone that is chosen for it.
fn paired(
    count: usize,
    random: &mut Random,
    zone: impl Fn(i32, &mut Random) -> Option<i32>,
) -> Vec<i32> {
    let mut words = Vec::new();
    let mut at = random.between(-100, 100);
    for ix in 0..count {
        let round = random.coin();
        let zone = zone(at, random);
        words.extend(edge(at, at, round, zone, (ix ^ 1).min(count - 1)));
        at += if ix % 2 == 0 {
            random.between(40, 90)
        } else {
            random.between(60, 160)
        };
    }
    words
}

/// The edges of an m whose third stem is to be moved: even ones are the stems' first edges, or of twelve every fourth.
pub fn m(count: usize, random: &mut Random) -> Vec<i32> {
    let stem = random.between(30, 60);
    let gap = random.between(80, 120);
    let mut words = Vec::new();
    for ix in 0..count {
        let place = (ix * 6 / count) as i32;
        let opos = place / 2 * gap + place % 2 * stem + (ix % 2) as i32;
        let moved = opos + random.between(-8, 8);
        words.extend(edge(opos, moved, false, None, (ix + 1) % count));
    }
    words
}
