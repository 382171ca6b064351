//! Outlines with the list that remembers their references.

use super::{points, Random};
use crate::{
    job::{Job, Points, References},
    limits::COORDINATE,
    references::{contour_of, known, remember_references, remembered, Known},
};

/// A job of call 18: lists of any numbers are lent.
pub fn remember(small: bool, random: &mut Random) -> Job {
    let Points { touches, ends, .. } = points::points(small, random);
    let mut any = || (0..touches.len()).map(|_| random.bits() as u16).collect();
    let mut list = References {
        before: any(),
        behind: any(),
    };
    if random.once_in(8) {
        unlike(&mut list, random);
    }
    Job::Remember(touches, ends, list)
}

/// A job of call 19: half of the lists are right, the others wrong in one way; now and then a coordinate is out of range too.
pub fn align(small: bool, random: &mut Random) -> Job {
    let mut points = points::points(small, random);
    let mut list = list_of(&points);
    match random.below(8) {
        0..=3 => {}
        4 => points = other_outline(points, random),
        _ => list = wrong(&points, list, random),
    }
    if random.once_in(4) {
        remark(&mut points.touches, random);
    }
    if random.once_in(12) {
        far(&mut points.currents, random);
    }
    Job::WithReferences(points, list)
}

/// The right list of an outline; of one that is refused, zeros.
pub fn list_of(points: &Points) -> References {
    let zeros = vec![0; points.touches.len()];
    let mut list = References {
        before: zeros.clone(),
        behind: zeros,
    };
    let _ = remember_references(&points.touches, &points.ends, &mut list);
    list
}

/// The outline with one mark or one contour other than the list knows.
fn other_outline(mut points: Points, random: &mut Random) -> Points {
    let count = points.touches.len();
    if count == 0 {
        return points;
    }
    let at = random.below(count);
    if random.coin() {
        points.touches[at] = if points.touches[at] == 0 { 1 } else { 0 };
        return points;
    }
    match points.ends.binary_search(&(at as u16)) {
        Ok(place) => drop(points.ends.remove(place)),
        Err(place) => points.ends.insert(place, at as u16),
    }
    points
}

/// Other marks of the same touched points.
fn remark(touches: &mut [u8], random: &mut Random) {
    for mark in touches.iter_mut().filter(|mark| **mark != 0) {
        *mark = random.pick(&[1, 2, 127, 128, 255]);
    }
}

/// Puts a current at its limit or beyond.
pub fn far(currents: &mut [i32], random: &mut Random) {
    if !currents.is_empty() {
        let most = COORDINATE.end() + random.between(-1, 1);
        currents[random.below(currents.len())] = random.pick(&[most, -most]);
    }
}

/// A list that is wrong in one way, or nearly always so.
fn wrong(points: &Points, mut list: References, random: &mut Random) -> References {
    let count = points.touches.len();
    if count == 0 {
        unlike(&mut list, random);
        return list;
    }
    let at = random.below(count);
    match random.below(12) {
        0 | 1 => one_number(&mut list, count, random),
        2 => {
            let number = number(count, random);
            (list.before[at], list.behind[at]) = (number, number);
        }
        3 => std::mem::swap(&mut list.before[at], &mut list.behind[at]),
        4 => std::mem::swap(&mut list.before, &mut list.behind),
        5 => {
            list.before.rotate_right(1);
            list.behind.rotate_right(1);
        }
        6 => unlike(&mut list, random),
        _ => list = misread(points, random),
    }
    list
}

/// Changes one number of one list.
fn one_number(list: &mut References, count: usize, random: &mut Random) {
    let numbers = if random.coin() {
        &mut list.before
    } else {
        &mut list.behind
    };
    let at = random.below(count);
    numbers[at] = match random.below(3) {
        0 => numbers[at].wrapping_add(random.pick(&[1, u16::MAX])),
        _ => number(count, random),
    };
}

/// A number of a list: a point's, beyond the points, or about those of the other cases.
pub fn number(count: usize, random: &mut Random) -> u16 {
    match random.below(4) {
        0 => random.between(65_532, 65_535) as u16,
        1 => (count + random.below(2)) as u16,
        2 => random.pick(&[4_095, 4_096, 32_768, 65_531]),
        _ => random.below(count) as u16,
    }
}

/// Makes a list one number longer or shorter.
pub fn unlike(list: &mut References, random: &mut Random) {
    let (more, which) = (random.coin(), random.below(3));
    for (ix, numbers) in [&mut list.before, &mut list.behind].into_iter().enumerate() {
        if which != ix && more {
            numbers.push(65_534);
        } else if which != ix {
            numbers.pop();
        }
    }
}

/// What someone misreads.
#[derive(Copy, Clone)]
enum Misread {
    /// First and second in place of before and behind.
    Order,
    /// The only touched point is kept, twice.
    Lone,
    /// A contour does not go on behind its end.
    Seam,
    /// Touched comes behind all others.
    Touched,
    /// No contour, and one touched point or none, are taken for each other.
    Cases,
}

/// The list of someone who misread what is known of a point.
fn misread(points: &Points, random: &mut Random) -> References {
    use Misread::{Cases, Lone, Order, Seam, Touched};
    let Points { touches, ends, .. } = points;
    if random.once_in(6) {
        // The neighbours in the whole outline, as if it were one contour.
        return remembered(touches, &[touches.len() as u16 - 1]);
    }
    let slip = random.pick(&[Order, Lone, Seam, Touched, Cases]);
    let known = known(touches, ends).into_iter().enumerate();
    let numbers = known.map(|(ix, known)| misnumbered(points, slip, ix, known));
    let (before, behind) = numbers.map(|[before, behind]| (before, behind)).unzip();
    References { before, behind }
}

/// The numbers that a misreader gives a point.
fn misnumbered(points: &Points, slip: Misread, ix: usize, known: Known) -> [u16; 2] {
    let original = |ix: u16| points.originals[usize::from(ix)];
    let (first, last) =
        contour_of(&points.ends, ix).map_or((ix, ix), |contour| (*contour.start(), *contour.end()));
    let has_contour = contour_of(&points.ends, ix).is_some();
    let touched: Vec<usize> = (first..=last)
        .filter(|ix| points.touches[*ix] != 0)
        .collect();
    match (slip, known) {
        (Misread::Order, Known::Two(before, behind)) if original(behind) < original(before) => {
            [behind, before]
        }
        (Misread::Lone, Known::OneOrNone) if touched.len() == 1 => [touched[0] as u16; 2],
        (Misread::Seam, Known::Two(before, behind)) => [
            if usize::from(before) < ix {
                before
            } else {
                first as u16
            },
            if usize::from(behind) > ix {
                behind
            } else {
                last as u16
            },
        ],
        (Misread::Touched, Known::Touched) if !has_contour => Known::NoContour.numbers(),
        (Misread::Touched, Known::Touched) if touched.len() == 1 => Known::OneOrNone.numbers(),
        (Misread::Cases, Known::NoContour) => Known::OneOrNone.numbers(),
        (Misread::Cases, Known::OneOrNone) => Known::NoContour.numbers(),
        _ => known.numbers(),
    }
}
