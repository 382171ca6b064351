//! The two functions of the path. A room that is too small for some path of as many points and contours is refused by 1, in front of 3.

use crate::{
    ffi,
    memory::{with_and_without, Memory, Side},
    tally::Tally,
};
use oracle::{
    decode::decode,
    generate::{self, Profile, Random},
    job::{Job, Walk},
    path::Step,
    text,
};

/// The answer to lists of other lengths, and to a room that is too small.
const TOO_LONG: u8 = 1;
/// What stands in places before a call, and behind what it wrote.
const BEFORE: (u8, f32, u32) = (9, -7.5, 99);
/// Floats of a step.
const FLOATS: usize = 4;

/// The memory of an outline's lists, and of what the functions write.
struct Memories {
    xs: Memory,
    ys: Memory,
    marks: Memory,
    ends: Memory,
    kinds: Memory,
    floats: Memory,
    number: Memory,
}

/// What a function is lent and leaves: kinds, the bits of floats, and a number.
#[derive(Clone, PartialEq, Debug)]
struct Lent {
    kinds: Vec<u8>,
    floats: Vec<u32>,
    number: u32,
}

impl Lent {
    /// Places of these lengths before a call.
    fn new(kinds: usize, floats: usize) -> Self {
        let (kind, float, number) = BEFORE;
        Self {
            kinds: vec![kind; kinds],
            floats: vec![float.to_bits(); floats],
            number,
        }
    }

    /// Writes a step at a place.
    fn put(&mut self, at: usize, step: Option<&Step>) {
        let floats = step.map_or(Vec::new(), Step::places);
        let floats = floats.iter().flat_map(|place| [place.x, place.y]);
        let zeros = std::iter::repeat(0.0);
        self.kinds[at] = step.map_or(0, |step| step.kind() as u8);
        for (held, float) in self.floats[FLOATS * at..]
            .iter_mut()
            .zip(floats.chain(zeros).take(FLOATS))
        {
            *held = float.to_bits();
        }
    }
}

impl Memories {
    /// Memory of its own for each list.
    fn new() -> Self {
        Self {
            xs: Memory::new(),
            ys: Memory::new(),
            marks: Memory::new(),
            ends: Memory::new(),
            kinds: Memory::new(),
            floats: Memory::new(),
            number: Memory::new(),
        }
    }

    /// The answer of `khs_path`, or with a cursor of `khs_path_step`, and what it leaves; none where something else was written.
    fn run(
        &mut self,
        walk: &Walk,
        cursor: Option<u32>,
        lent: &Lent,
        side: Side,
    ) -> Option<(u8, Lent)> {
        let xs = self.xs.lend(&walk.xs, side);
        let ys = self.ys.lend(&walk.ys, side);
        let marks = self.marks.lend(&walk.marks, side);
        let ends = self.ends.lend(&walk.ends, side);
        let kinds = self.kinds.lend(&lent.kinds, side);
        let floats = self.floats.lend(&lent.floats, side).cast();
        let number = self.number.lend(&[lent.number], side);
        let lens = [
            walk.xs.len(),
            walk.ys.len(),
            walk.marks.len(),
            walk.ends.len(),
        ];
        // SAFETY: each pointer and length is of one list in memory of its own, and the places of a step are as many as it asks for.
        let answer = unsafe {
            match cursor {
                Some(cursor) => ffi::khs_path_step(
                    xs, lens[0], ys, lens[1], marks, lens[2], ends, lens[3], cursor, kinds, floats,
                    number,
                ),
                None => ffi::khs_path(
                    xs,
                    lens[0],
                    ys,
                    lens[1],
                    marks,
                    lens[2],
                    ends,
                    lens[3],
                    kinds,
                    lent.kinds.len(),
                    floats,
                    lent.floats.len(),
                    number,
                ),
            }
        };
        let memories = [
            &self.xs,
            &self.ys,
            &self.marks,
            &self.ends,
            &self.kinds,
            &self.floats,
            &self.number,
        ];
        let read = walk.xs == self.xs.held::<i32>()
            && walk.ys == self.ys.held::<i32>()
            && walk.marks == self.marks.held::<u8>()
            && walk.ends == self.ends.held::<u16>();
        (read && memories.into_iter().all(Memory::is_guarded)).then(|| {
            let held = Lent {
                kinds: self.kinds.held().to_vec(),
                floats: self.floats.held().to_vec(),
                number: self.number.held()[0],
            };
            (answer, held)
        })
    }
}

/// What `khs_path` does.
fn whole(walk: &Walk, lent: &Lent) -> (u8, Lent) {
    let mut left = lent.clone();
    let room = walk.xs.len() + 2 * walk.ends.len();
    if lent.kinds.len() < room || lent.floats.len() < FLOATS * room {
        return (TOO_LONG, left);
    }
    match oracle::calls::path(walk) {
        Ok(steps) => {
            left.number = steps.len() as u32;
            for (at, step) in steps.iter().enumerate() {
                left.put(at, Some(step));
            }
            (0, left)
        }
        Err(refusal) => (refusal.0 as u8, left),
    }
}

/// What `khs_path_step` does.
fn one(walk: &Walk, cursor: u32, lent: &Lent) -> (u8, Lent) {
    let mut left = lent.clone();
    match oracle::calls::path_step(walk, cursor) {
        Ok(step) => {
            left.put(0, step.as_ref());
            left.number = cursor + u32::from(step.is_some());
            (0, left)
        }
        Err(refusal) => (refusal.0 as u8, left),
    }
}

/// Compares both functions on so many random outlines, and on small ones one after the other.
pub fn paths(count: usize, random: &mut Random) -> Vec<Tally> {
    let mut memories = Memories::new();
    let mut tallies = vec![Tally::new("khs_path_step"), Tally::new("khs_path")];
    let mut compare = |walk: &Walk, cursor: Option<u32>, lent: &Lent, side: Side| {
        let expected = match cursor {
            Some(cursor) => one(walk, cursor, lent),
            None => whole(walk, lent),
        };
        let tally = &mut tallies[usize::from(cursor.is_none())];
        with_and_without(side, |side| {
            tally.begin();
            let outcome = memories.run(walk, cursor, lent, side);
            let same = outcome.as_ref() == Some(&expected);
            tally.count(expected.0, same, || {
                format!("{walk:?}, {cursor:?}, {lent:?}: {outcome:?}, and the oracle {expected:?}")
            });
        });
    };
    small([0, -3, 64, 196_605], |walk| {
        let room = walk.xs.len() + 2 * walk.ends.len();
        for cursor in 0..=room as u32 + 1 {
            compare(walk, Some(cursor), &Lent::new(1, FLOATS), Side::Back);
        }
        for (kinds, floats) in
            [(0, 0), (1, 0), (0, 1)].map(|(k, f)| (room + 1 - k, FLOATS * room + 1 - f))
        {
            compare(walk, None, &Lent::new(kinds, floats), Side::Back);
        }
        if room > 0 {
            compare(walk, None, &Lent::new(room - 1, FLOATS * room), Side::Back);
            compare(walk, None, &Lent::new(room, FLOATS * room - 1), Side::Back);
        }
    });
    for _ in 0..count {
        let (walk, cursor) = outline(random);
        let side = random.pick(&[Side::Front, Side::Back]);
        compare(&walk, Some(cursor), &Lent::new(1, FLOATS), side);
        let room = walk.xs.len() + 2 * walk.ends.len();
        let kinds = random.pick(&[
            room,
            room,
            room + 1,
            room.saturating_sub(1),
            room / 2,
            2 * room,
        ]);
        let floats = FLOATS * room;
        let floats = random.pick(&[
            floats,
            floats,
            floats + 1,
            floats.saturating_sub(1),
            room,
            floats + 9,
        ]);
        compare(&walk, None, &Lent::new(kinds, floats), side);
    }
    tallies
}

/// An outline and a cursor of the oracle's, as they are or damaged.
fn outline(random: &mut Random) -> (Walk, u32) {
    let profile = random.pick(&[Profile::Mixed, Profile::Small, Profile::Limits]);
    loop {
        let line = generate::line(16, profile, random);
        if let Some(Job::PathStep(mut walk, cursor)) =
            text::parse(&line).and_then(|words| decode(&words))
        {
            if random.coin() {
                damage(&mut walk, random);
            }
            let far = random.pick(&[cursor, cursor, cursor, i32::MAX as u32 + 1, u32::MAX]);
            return (walk, far);
        }
    }
}

/// Damages one list: its length, or an entry.
pub fn damage(walk: &mut Walk, random: &mut Random) {
    let at = random.below(walk.xs.len().max(1));
    let beyond = random.pick(&[i32::MIN, -196_606, 196_606, i32::MAX]);
    match random.below(8) {
        0 => walk.xs.resize(random.pick(&[0, 4_096, 4_097, 5_000]), 3),
        1 => drop(walk.ys.pop()),
        2 => walk.marks.push(9),
        3 => walk.ends.push(random.bits() as u16),
        4 => walk
            .xs
            .iter_mut()
            .skip(at)
            .take(1)
            .for_each(|x| *x = beyond),
        5 => walk
            .ys
            .iter_mut()
            .skip(at)
            .take(1)
            .for_each(|y| *y = beyond),
        6 => walk
            .marks
            .iter_mut()
            .for_each(|mark| *mark = random.bits() as u8),
        _ => walk
            .ends
            .iter_mut()
            .for_each(|end| *end = end.wrapping_add(random.below(3) as u16)),
    }
}

/// Outlines of up to four points with every mark and every set of contour ends, and lists of every length up to three.
pub fn small(places: [i32; 4], mut compare: impl FnMut(&Walk)) {
    for points in 0..=4usize {
        for number in 0..1usize << (2 * points) {
            let bit = |ix: usize| number >> ix & 1 == 1;
            compare(&Walk {
                xs: places[..points].to_vec(),
                ys: places[..points].iter().rev().copied().collect(),
                marks: (0..points).map(|ix| u8::from(bit(ix))).collect(),
                ends: (0..points as u16)
                    .filter(|ix| bit(points + usize::from(*ix)))
                    .collect(),
            });
        }
    }
    for lengths in 0..256usize {
        let len = |ix: usize| lengths >> (2 * ix) & 3;
        compare(&Walk {
            xs: vec![5; len(0)],
            ys: vec![6; len(1)],
            marks: vec![1; len(2)],
            ends: (0..len(3) as u16).collect(),
        });
    }
}
