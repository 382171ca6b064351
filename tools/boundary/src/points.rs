//! The three functions without records: the two middles and the weak points.

use crate::{
    ffi,
    memory::{with_and_without, Memory, Side},
    tally::Tally,
};
use oracle::{
    calls,
    decode::decode,
    generate::{self, Profile, Random},
    job::{Job, Points},
    text,
};

/// A middle: its name, the function and the oracle's.
type Middle = (
    &'static str,
    unsafe extern "C" fn(i32, i32) -> i16,
    fn(i32, i32) -> i16,
);

/// The two middles.
const MIDDLES: [Middle; 2] = [
    (
        "khs_compute_mid_pos",
        ffi::khs_compute_mid_pos,
        calls::compute_mid_pos,
    ),
    (
        "khs_compute_mid_delta",
        ffi::khs_compute_mid_delta,
        calls::compute_mid_delta,
    ),
];

/// Compares the middles on so many random pairs, and on all pairs of words where sums, halves and low bits turn over.
pub fn middles(count: usize, random: &mut Random) -> Vec<Tally> {
    let turns: Vec<i32> = [i32::MIN, -65_536, -32_768, 0, 32_768, 65_536, i32::MAX]
        .into_iter()
        .flat_map(|turn: i32| (-5..=5).map(move |step| turn.wrapping_add(step)))
        .collect();
    let tally = |(name, function, oracle): Middle| {
        let mut tally = Tally::new(name);
        let mut compare = |min: i32, max: i32| {
            // SAFETY: the call takes numbers alone.
            let value = unsafe { function(min, max) };
            let expected = oracle(min, max);
            tally.count(0, value == expected, || {
                format!("{min}, {max}: {value}, and the oracle {expected}")
            });
        };
        for min in &turns {
            turns.iter().for_each(|max| compare(*min, *max));
        }
        for _ in 0..count {
            compare(random.bits() as i32, random.bits() as i32);
        }
        tally
    };
    MIDDLES.into_iter().map(tally).collect()
}

/// The memory of an outline's lists.
pub struct Memories {
    originals: Memory,
    currents: Memory,
    touches: Memory,
    ends: Memory,
}

/// An outline as it is lent: where each list stands, and how long it is.
pub struct Lent {
    pub originals: *mut i32,
    pub originals_len: usize,
    pub currents: *mut i32,
    pub currents_len: usize,
    pub touches: *mut u8,
    pub touches_len: usize,
    pub ends: *mut u16,
    pub ends_len: usize,
}

impl Memories {
    /// Memory of its own for each list.
    pub fn new() -> Self {
        Self {
            originals: Memory::new(),
            currents: Memory::new(),
            touches: Memory::new(),
            ends: Memory::new(),
        }
    }

    /// A call's answer to an outline and what its lists then hold; none where something beside them was written.
    pub fn run(
        &mut self,
        points: &Points,
        side: Side,
        call: impl FnOnce(&Lent) -> u8,
    ) -> Option<(u8, Points)> {
        let answer = call(&Lent {
            originals: self.originals.lend(&points.originals, side),
            originals_len: points.originals.len(),
            currents: self.currents.lend(&points.currents, side),
            currents_len: points.currents.len(),
            touches: self.touches.lend(&points.touches, side),
            touches_len: points.touches.len(),
            ends: self.ends.lend(&points.ends, side),
            ends_len: points.ends.len(),
        });
        let lists = [&self.originals, &self.currents, &self.touches, &self.ends];
        lists.into_iter().all(Memory::is_guarded).then(|| {
            let held = Points {
                originals: self.originals.held().to_vec(),
                currents: self.currents.held().to_vec(),
                touches: self.touches.held().to_vec(),
                ends: self.ends.held().to_vec(),
            };
            (answer, held)
        })
    }
}

/// Calls the weak points.
fn align(lent: &Lent) -> u8 {
    // SAFETY: each pointer and length is of one list in memory of its own.
    unsafe {
        ffi::khs_align_weak_points(
            lent.originals,
            lent.originals_len,
            lent.currents,
            lent.currents_len,
            lent.touches,
            lent.touches_len,
            lent.ends,
            lent.ends_len,
        )
    }
}

/// Compares the weak points on so many random outlines, and on small ones one after the other.
pub fn weak(count: usize, random: &mut Random) -> Tally {
    let mut memories = Memories::new();
    let mut tally = Tally::new("khs_align_weak_points");
    let mut compare = |points: &Points, side: Side| {
        with_and_without(side, |side| {
            tally.compare(points, calls::align_weak_points, || {
                memories.run(points, side, align)
            });
        });
    };
    small(|points| compare(points, Side::Back));
    for _ in 0..count {
        let points = outline(random);
        compare(&points, random.pick(&[Side::Front, Side::Back]));
    }
    tally
}

/// An outline of the oracle's, as it is or damaged.
fn outline(random: &mut Random) -> Points {
    let profile = random.pick(&[Profile::Mixed, Profile::Small, Profile::Limits]);
    loop {
        let line = generate::line(3, profile, random);
        if let Some(Job::Weak(mut points)) = text::parse(&line).and_then(|words| decode(&words)) {
            if random.coin() {
                damage(&mut points, random);
            }
            return points;
        }
    }
}

/// Damages one list: its length, or an entry.
fn damage(points: &mut Points, random: &mut Random) {
    let at = random.below(points.originals.len().max(1));
    let beyond = random.pick(&[i32::MIN, -65_536, 65_536, i32::MAX]);
    match random.below(8) {
        0 => points
            .originals
            .resize(random.pick(&[0, 4_096, 4_097, 5_000]), 3),
        1 => drop(points.currents.pop()),
        2 => points.touches.push(9),
        3 => points.ends.push(random.bits() as u16),
        4 => points
            .originals
            .iter_mut()
            .skip(at)
            .take(1)
            .for_each(|c| *c = beyond),
        5 => points
            .currents
            .iter_mut()
            .skip(at)
            .take(1)
            .for_each(|c| *c = beyond),
        6 => points
            .touches
            .iter_mut()
            .for_each(|mark| *mark = random.bits() as u8),
        _ => points
            .ends
            .iter_mut()
            .for_each(|end| *end = end.wrapping_add(random.below(3) as u16)),
    }
}

/// The places of small outlines: those of originals, and of currents; at two of these lines some are too steep.
const PLACES: [[[i32; 3]; 2]; 3] = [
    [[-3, 0, 4]; 2],
    [[0, 1, 2], [-32_768, 0, 32_768]],
    [[0, 1, 3], [-49_152, 0, 49_152]],
];

/// Outlines of up to three points on few places with every mark and contour, and lists of every length up to three.
fn small(mut compare: impl FnMut(&Points)) {
    for places in &PLACES {
        on_places(places, &mut compare);
    }
    for lengths in 0..256usize {
        let len = |ix: usize| lengths >> (2 * ix) & 3;
        compare(&Points {
            originals: vec![5; len(0)],
            currents: vec![6; len(1)],
            touches: vec![0; len(2)],
            ends: (0..len(3) as u16).collect(),
        });
    }
}

/// Outlines of up to three points on these places with every mark and contour.
fn on_places([originals, currents]: &[[i32; 3]; 2], compare: &mut impl FnMut(&Points)) {
    for points in 0..=3u32 {
        let places = 3usize.pow(points);
        let spread = |on: &[i32; 3], number: usize| {
            (0..points)
                .map(|ix| on[number / 3usize.pow(ix) % 3])
                .collect()
        };
        let bits = |set: usize| (0..points).filter(move |ix| set >> ix & 1 == 1);
        for number in 0..(places * places) << (2 * points) {
            let (rest, marks) = (number >> points, number % (1 << points));
            let (rest, ends) = (rest >> points, rest % (1 << points));
            compare(&Points {
                originals: spread(originals, rest / places),
                currents: spread(currents, rest % places),
                touches: (0..points).map(|ix| (marks >> ix & 1) as u8).collect(),
                ends: bits(ends).map(|ix| ix as u16).collect(),
            });
        }
    }
}
