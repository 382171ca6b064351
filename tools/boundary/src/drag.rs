//! One point dragged.

use crate::{
    ffi,
    memory::{with_and_without, Side},
    points::{Lent, Memories},
    references,
    tally::Tally,
};
use oracle::{
    drag::drag_point,
    generate::{few, Random},
    job::{Job, Points},
};

/// An outline and the word of a point.
type Dragged = (Points, u32);

/// Compares so many random cases, and small ones one after the other.
pub fn drags(count: usize, random: &mut Random) -> Tally {
    let mut memories = Memories::new();
    let mut tally = Tally::new("khs_drag_point");
    let oracle = |given: &mut Dragged| drag_point(&mut given.0, given.1);
    let mut compare = |given: &Dragged, side: Side| {
        with_and_without(side, |side| {
            tally.compare(given, oracle, || {
                let (points, point) = given;
                let outcome = memories.run(points, side, |lent| drag(lent, *point));
                outcome.map(|(answer, held)| (answer, (held, *point)))
            });
        });
    };
    small(|given| compare(given, Side::Back));
    for _ in 0..count {
        let mut given = dragged(random);
        if random.once_in(3) {
            damage(&mut given, random);
        }
        compare(&given, random.pick(&[Side::Front, Side::Back]));
    }
    tally
}

/// Calls the function.
fn drag(lent: &Lent, point: u32) -> u8 {
    // SAFETY: each pointer and length is of one list in memory of its own.
    unsafe {
        ffi::khs_drag_point(
            lent.originals,
            lent.originals_len,
            lent.currents,
            lent.currents_len,
            lent.touches,
            lent.touches_len,
            lent.ends,
            lent.ends_len,
            point,
        )
    }
}

/// The outline and the point of a job.
fn dragged(random: &mut Random) -> Dragged {
    match references::job(20, random) {
        Job::Drag(points, point) => (points, point.into()),
        _ => unreachable!("the job is of the call that was asked for"),
    }
}

/// Damages a list's length, or names the point by a word that is another's in its low bits, or by any.
fn damage((points, point): &mut Dragged, random: &mut Random) {
    match random.below(6) {
        0 => drop(points.originals.pop()),
        1 => points.currents.push(5),
        2 => drop(points.touches.pop()),
        3 => *point ^= 1 << (16 + random.below(16)),
        4 => *point = random.bits() as u32,
        _ => points.ends.push(random.bits() as u16),
    }
}

/// Outlines of up to three points on few places with every mark and contour and every point, by its word and by words that have it in their low bits; and lists of every
/// length up to three.
fn small(mut compare: impl FnMut(&Dragged)) {
    for count in 0..=3 {
        for points in few::placed(count) {
            for point in 0..=count as u32 {
                compare(&(points.clone(), point));
            }
            for word in [1 << 16, 1 << 31, u32::MAX] {
                compare(&(points.clone(), word));
            }
        }
    }
    for lengths in 0..256usize {
        let len = |ix: usize| lengths >> (2 * ix) & 3;
        let points = Points {
            originals: vec![5; len(0)],
            currents: vec![6; len(1)],
            touches: vec![1; len(2)],
            ends: (0..len(3) as u16).collect(),
        };
        for point in 0..=3 {
            compare(&(points.clone(), point));
        }
    }
}
