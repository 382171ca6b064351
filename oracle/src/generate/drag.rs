//! Outlines of which a point is dragged.

use super::{points, references, Random};
use crate::{
    calls,
    job::{Job, Points},
    limits::COORDINATE,
};

/// A job of call 20: two buffers in three are what the full alignment left, with the dragged point's current then set.
pub fn job(small: bool, random: &mut Random) -> Job {
    let mut points = points::points(small, random);
    touch_one(&mut points.touches, random);
    if random.below(3) > 0 {
        let _ = calls::align_weak_points(&mut points);
    }
    let point = point(&points, random);
    drag(&mut points, point, random);
    if random.once_in(16) {
        references::far(&mut points.currents, random);
    }
    Job::Drag(points, point)
}

/// Touches a point where none is, or nearly always so.
fn touch_one(touches: &mut [u8], random: &mut Random) {
    let none = touches.iter().all(|mark| *mark == 0);
    if none && !touches.is_empty() && random.below(8) > 0 {
        touches[random.below(touches.len())] = 255;
    }
}

/// A point: nearly always a touched one, mostly with untouched ones beside it; else any, and seldom one that is not there.
pub fn point(points: &Points, random: &mut Random) -> u16 {
    let count = points.touches.len();
    let is_touched = |ix: &usize| points.touches[*ix] != 0;
    let touched: Vec<usize> = (0..count).filter(is_touched).collect();
    if touched.is_empty() || random.once_in(12) {
        return any_point(count, random);
    }
    let beside_untouched = |ix: &usize| {
        [ix.wrapping_sub(1), ix + 1]
            .iter()
            .any(|other| *other < count && !is_touched(other))
    };
    let apart: Vec<usize> = touched.iter().copied().filter(beside_untouched).collect();
    let from = if apart.is_empty() || random.once_in(4) {
        touched
    } else {
        apart
    };
    random.pick(&from) as u16
}

/// Any point, or one that is not there.
fn any_point(count: usize, random: &mut Random) -> u16 {
    match random.below(4) {
        0 => (count + random.below(2)) as u16,
        1 => random.pick(&[4_095, 4_096, 32_768, 65_535]),
        _ => random.below(count + 1) as u16,
    }
}

/// Sets a point's current, if the point is there: where it is, on its original, near by, at another point's place, or as far as it goes.
fn drag(points: &mut Points, point: u16, random: &mut Random) {
    let count = points.currents.len();
    let Some(original) = points.originals.get(usize::from(point)) else {
        return;
    };
    let most = *COORDINATE.end();
    let other = random.below(count);
    let current = points.currents[usize::from(point)];
    points.currents[usize::from(point)] = match random.below(8) {
        0 => current,
        1 | 2 => *original,
        3 => points.currents[other],
        4 => random.pick(&[most, -most]),
        5 => original + random.between(-3, 3),
        _ => current.saturating_add(random.between(-200, 200)),
    };
}
