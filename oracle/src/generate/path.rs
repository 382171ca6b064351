//! Outlines to be walked.

use super::{points, Random};
use crate::{
    calls,
    job::{Job, Walk},
};

/// A job of call 15 or 16.
pub fn job(call: usize, small: bool, random: &mut Random) -> Job {
    let walk = walk(small, random);
    match call {
        15 => Job::Path(walk),
        _ => {
            let cursor = cursor(&walk, random);
            Job::PathStep(walk, cursor)
        }
    }
}

/// An outline: small ones over few places, others like a glyph's or as wide as weak points can make them.
pub fn walk(small: bool, random: &mut Random) -> Walk {
    let count = match random.below(20) {
        0 => 0,
        _ if small => random.below(7) + 1,
        _ => random.below(40) + 1,
    };
    let span = if small {
        random.pick(&[0, 1, 3, 70])
    } else {
        random.pick(&[200, 2_000, 49_149, 196_605])
    };
    let ends = points::ends(count, random);
    Walk {
        xs: coordinates(count, span, random),
        ys: coordinates(count, span, random),
        marks: marks(count, &ends, random),
        ends,
    }
}

/// Coordinates, some equal to the one in front.
fn coordinates(count: usize, span: i32, random: &mut Random) -> Vec<i32> {
    let mut made = Vec::new();
    let mut last = 0;
    for _ in 0..count {
        if !random.once_in(6) {
            last = random.between(-span, span);
        }
        made.push(last);
    }
    made
}

/// On-curve marks: each contour has none, one, all or some, or two curves to a point as round glyphs do.
fn marks(count: usize, ends: &[u16], random: &mut Random) -> Vec<u8> {
    let mut marks: Vec<u8> = (0..count).map(|_| mark(random.coin(), random)).collect();
    let mut first = 0;
    for end in ends.iter().map(|end| usize::from(*end)) {
        let one = random.below(end + 1 - first);
        let kind = random.below(6);
        for (ix, place) in marks[first..=end].iter_mut().enumerate() {
            let on = match kind {
                0 => false,
                1 => ix == one,
                2 => true,
                3 => ix % 3 == one % 3,
                _ => *place != 0,
            };
            *place = mark(on, random);
        }
        first = end + 1;
    }
    marks
}

/// A mark: zero off the curve, else any other.
fn mark(on: bool, random: &mut Random) -> u8 {
    if on {
        random.pick(&[1, 1, 2, 128, 255])
    } else {
        0
    }
}

/// A cursor: mostly of a step, also the last one's, at the end and beyond.
pub fn cursor(walk: &Walk, random: &mut Random) -> u32 {
    let count = calls::path(walk).map_or(0, |steps| steps.len() as u32);
    match random.below(12) {
        0 => 0,
        1 => random.pick(&[4_096, 12_287, 12_288, 65_536, 1 << 30, i32::MAX as u32]),
        2..=4 => (count + random.below(3) as u32).saturating_sub(1),
        _ => random.below(count as usize + 1) as u32,
    }
}
