//! Outlines one behind another.

use super::{limits::side, points, Random};
use crate::job::{Catalogue, Job, Points};

/// A job of call 17: some outlines are empty, some refused, and now and then the counts do not add up.
pub fn job(small: bool, random: &mut Random) -> Job {
    let outlines = match random.below(12) {
        0 => 0,
        1 => 1,
        2 if !small => random.below(30) + 10,
        _ => random.below(5) + 2,
    };
    let mut catalogue = Catalogue {
        shared: nothing(),
        point_counts: Vec::new(),
        contour_counts: Vec::new(),
        answers: Vec::new(),
    };
    for _ in 0..outlines {
        let outline = outline(small, random);
        append(&mut catalogue, outline);
        catalogue.answers.push(random.pick(&[0, 1, 3, 4, 7, 255]));
    }
    if random.once_in(6) {
        move_one(&mut catalogue, random);
    }
    if random.once_in(8) {
        unlike(&mut catalogue, random);
    }
    Job::Catalogue(catalogue)
}

/// An outline of no points and no contours.
fn nothing() -> Points {
    Points {
        originals: Vec::new(),
        currents: Vec::new(),
        touches: Vec::new(),
        ends: Vec::new(),
    }
}

/// An outline, sometimes empty, sometimes with one fault or two.
fn outline(small: bool, random: &mut Random) -> Points {
    if random.once_in(8) {
        return nothing();
    }
    let mut outline = points::points(small || random.coin(), random);
    for _ in 0..random.pick(&[0, 0, 0, 1, 1, 2]) {
        fault(&mut outline, random);
    }
    outline
}

/// Breaks the contour ends' rule or puts a coordinate at its limit or beyond.
fn fault(outline: &mut Points, random: &mut Random) {
    let count = outline.originals.len();
    match random.below(6) {
        0 => outline.ends.extend(outline.ends.last().copied()),
        1 => outline.ends.push(count as u16),
        2 => outline.ends.reverse(),
        _ if count == 0 => outline.ends.push(0),
        kind => {
            let coordinates = if kind == 3 {
                &mut outline.originals
            } else {
                &mut outline.currents
            };
            let limit = random.pick(&[16_383, 16_384, 65_535, 65_536]);
            coordinates[random.below(count)] = side(limit, true, random);
        }
    }
}

/// Appends an outline and its counts.
pub fn append(catalogue: &mut Catalogue, outline: Points) {
    catalogue.point_counts.push(outline.originals.len() as u16);
    catalogue.contour_counts.push(outline.ends.len() as u16);
    catalogue.shared.originals.extend(outline.originals);
    catalogue.shared.currents.extend(outline.currents);
    catalogue.shared.touches.extend(outline.touches);
    catalogue.shared.ends.extend(outline.ends);
}

/// Moves a point or a contour end to the neighbour: the counts add up as before.
fn move_one(catalogue: &mut Catalogue, random: &mut Random) {
    let counts = if random.coin() {
        &mut catalogue.point_counts
    } else {
        &mut catalogue.contour_counts
    };
    if counts.len() < 2 {
        return;
    }
    let ix = random.below(counts.len() - 1);
    let (from, to) = if random.coin() {
        (ix, ix + 1)
    } else {
        (ix + 1, ix)
    };
    if counts[from] > 0 {
        counts[from] -= 1;
        counts[to] += 1;
    }
}

/// Makes a count or a list of the whole call one more or one less.
pub fn unlike(catalogue: &mut Catalogue, random: &mut Random) {
    let shared = &mut catalogue.shared;
    let more = random.coin();
    match random.below(9) {
        0 => lengthen(&mut shared.originals, more, 5),
        1 => lengthen(&mut shared.currents, more, 6),
        2 => lengthen(&mut shared.touches, more, 1),
        3 => lengthen(&mut shared.ends, more, 0),
        4 => lengthen(&mut catalogue.point_counts, more, 0),
        5 => lengthen(&mut catalogue.contour_counts, more, 0),
        6 => lengthen(&mut catalogue.answers, more, 9),
        7 => off_by_one(&mut catalogue.point_counts, more, random),
        _ => off_by_one(&mut catalogue.contour_counts, more, random),
    }
}

/// Makes a list one longer or one shorter.
fn lengthen<T>(list: &mut Vec<T>, more: bool, value: T) {
    if more {
        list.push(value);
    } else {
        list.pop();
    }
}

/// Makes a count one more or one less.
fn off_by_one(counts: &mut [u16], more: bool, random: &mut Random) {
    if counts.is_empty() {
        return;
    }
    let ix = random.below(counts.len());
    let count = &mut counts[ix];
    *count = if more {
        *count + 1
    } else {
        count.saturating_sub(1)
    };
}
