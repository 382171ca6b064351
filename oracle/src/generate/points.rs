//! Outlines for the weak points.

use super::Random;
use crate::{
    job::Points,
    limits::{COORDINATE, OLD_COORDINATE},
};

/// One axis of an outline: half of them in the old range, the others to the limit, or with stretches that are steep or long.
pub fn points(small: bool, random: &mut Random) -> Points {
    match random.below(8) {
        0..=3 => within(*OLD_COORDINATE.end(), small, random),
        4..=5 => within(*COORDINATE.end(), small, random),
        _ => panel(random),
    }
}

/// An outline whose numbers are at most this far from 0.
pub fn within(most: i32, small: bool, random: &mut Random) -> Points {
    let count = match random.below(20) {
        0 => 0,
        _ if small => random.below(8) + 1,
        _ => random.below(30) + 1,
    };
    let span = if small {
        random.pick(&[1, 3, 6, 20])
    } else {
        random.pick(&[200, 2_000, most])
    };
    let originals: Vec<i32> = (0..count).map(|_| random.between(-span, span)).collect();
    let currents = currents(&originals, most, random);
    let ends = ends(count, random);
    let touches = touches(count, &ends, random);
    Points {
        originals,
        currents,
        touches,
        ends,
    }
}

/// An outline of a few contours, each with two touched points that are close and moved far apart, about where a quotient passes 32 bits, or as far apart as panels are.
pub fn panel(random: &mut Random) -> Points {
    let mut points = Points::none();
    for _ in 0..random.below(3) + 1 {
        stretch(&mut points, random);
        points.ends.push(points.originals.len() as u16 - 1);
    }
    if random.once_in(4) {
        points.ends.pop();
    }
    points
}

/// Adds a contour with two touched points, now and then a third, and untouched ones about them.
fn stretch(points: &mut Points, random: &mut Random) {
    let (span, rise) = if random.coin() {
        steep(random)
    } else {
        long(random)
    };
    let (mut originals, mut currents) = (ends_of(span, random), ends_of(rise, random));
    let [low, high] = originals;
    let (least, most) = (*COORDINATE.start(), *COORDINATE.end());
    for ends in [&mut originals, &mut currents] {
        if random.coin() {
            ends.reverse();
        }
    }
    let mut made: Vec<(i32, i32, u8)> = (0..2)
        .map(|ix| (originals[ix], currents[ix], mark(random)))
        .collect();
    for _ in 0..random.below(6) + 1 {
        let original = match random.below(4) {
            0 => random.between(low, high),
            1 => random.pick(&[low, high]),
            _ => random.pick(&[low, high]) + random.between(-2, 2),
        };
        let touch = if random.once_in(12) { mark(random) } else { 0 };
        let [current, _] = ends_of(0, random);
        let place = (original.clamp(least, most), current, touch);
        made.insert(random.below(made.len() + 1), place);
    }
    for (original, current, touch) in made {
        points.originals.push(original);
        points.currents.push(current);
        points.touches.push(touch);
    }
}

/// A short original span and a current one about where their quotient passes 32 bits.
fn steep(random: &mut Random) -> (i32, i32) {
    const RISES: [i32; 7] = [32_767, 32_768, 65_535, 65_536, 98_303, 98_304, 131_070];
    (random.pick(&[1, 2, 2, 3, 3, 4]), random.pick(&RISES))
}

/// An original span about where a result may leave its references, or as long as can be, and a current one, mostly so short that one does.
fn long(random: &mut Random) -> (i32, i32) {
    const SPANS: [i32; 8] = [
        32_768, 32_769, 65_536, 65_537, 65_792, 65_793, 131_069, 131_070,
    ];
    let span = match random.below(3) {
        0 => random.between(32_768, 131_070),
        _ => random.pick(&SPANS),
    };
    let rise = match random.below(3) {
        0 => random.between(0, 131_070),
        1 => random.between(0, 300),
        _ => random.pick(&[1, 127, 128, 129]),
    };
    (span, rise)
}

/// Two coordinates this far apart.
fn ends_of(span: i32, random: &mut Random) -> [i32; 2] {
    let (least, most) = (*COORDINATE.start(), *COORDINATE.end());
    let low = match random.below(4) {
        0 => least,
        1 => most - span,
        _ => random.between(least, most - span),
    };
    [low, low + span]
}

/// Current coordinates: moved from their originals, or all at one of two places.
fn currents(originals: &[i32], most: i32, random: &mut Random) -> Vec<i32> {
    if random.once_in(4) {
        let places = [random.between(-20, 20), random.between(-20, 20)];
        return originals.iter().map(|_| random.pick(&places)).collect();
    }
    let moves = random.pick(&[0, 1, 3, 64, most]);
    let moved = originals.iter().map(|original| {
        let current = current(*original, moves, random);
        current.clamp(-most, most)
    });
    moved.collect()
}

/// A current coordinate, so far from its original at most.
fn current(original: i32, moves: i32, random: &mut Random) -> i32 {
    if random.once_in(3) {
        return original;
    }
    original + random.between(-moves, moves)
}

/// Contour ends: all points, or some left behind the last.
pub fn ends(count: usize, random: &mut Random) -> Vec<u16> {
    let chance = random.pick(&[1, 2, 4, 30]);
    let mut ends: Vec<u16> = (0..count as u16)
        .filter(|_| random.once_in(chance))
        .collect();
    let last = count.checked_sub(1).map(|last| last as u16);
    if random.below(4) > 0 && ends.last().copied() != last {
        ends.extend(last);
    }
    ends
}

/// Touch marks: each contour has none, one, few or many.
fn touches(count: usize, ends: &[u16], random: &mut Random) -> Vec<u8> {
    let mut touches = vec![0; count];
    let mut first = 0;
    for end in ends.iter().map(|end| usize::from(*end)) {
        match random.below(4) {
            0 => {}
            1 => touches[first + random.below(end + 1 - first)] = mark(random),
            kind => {
                let chance = if kind == 2 { 2 } else { 4 };
                for touch in &mut touches[first..=end] {
                    *touch = if random.once_in(chance) {
                        mark(random)
                    } else {
                        0
                    };
                }
            }
        }
        first = end + 1;
    }
    for touch in &mut touches[first..] {
        *touch = random.pick(&[0, 1]);
    }
    touches
}

/// A mark that is not zero.
fn mark(random: &mut Random) -> u8 {
    random.pick(&[1, 1, 2, 128, 255])
}
