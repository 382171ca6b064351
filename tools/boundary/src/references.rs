//! Remembered references: the list made, and outlines aligned with it.

use crate::{
    ffi,
    memory::{with_and_without, Memory, Side},
    points::Memories,
    tally::Tally,
};
use oracle::{
    decode::decode,
    generate::{self, few, Profile, Random},
    job::{Job, Points, References},
    references::{align_with_references, remember_references, remembered},
    text,
};

/// What remembering is given: marks, contour ends, and the lists as they are lent.
type Marked = (Vec<u8>, Vec<u16>, References);
/// What aligning is given.
type Listed = (Points, References);

/// Compares both functions on so many random cases each, and on small ones one after the other.
pub fn references(count: usize, random: &mut Random) -> [Tally; 2] {
    [remembering(count, random), aligning(count, random)]
}

/// Compares the function that makes the list.
fn remembering(count: usize, random: &mut Random) -> Tally {
    let mut memories = [(); 4].map(|()| Memory::new());
    let mut tally = Tally::new("khs_remember_references");
    let oracle = |given: &mut Marked| remember_references(&given.0, &given.1, &mut given.2);
    let mut compare = |given: &Marked, side: Side| {
        with_and_without(side, |side| {
            tally.compare(given, oracle, || remember(&mut memories, given, side));
        });
    };
    small_marked(|given| compare(given, Side::Back));
    for _ in 0..count {
        let mut given = marked(random);
        if random.coin() {
            damage_list(&mut given.2, random);
        }
        compare(&given, random.pick(&[Side::Front, Side::Back]));
    }
    tally
}

/// The answer to marks and ends and what the lists hold; none where something beside them was written.
fn remember(memories: &mut [Memory; 4], given: &Marked, side: Side) -> Option<(u8, Marked)> {
    let (marks, given_ends, list) = given;
    let [touches, ends, before, behind] = memories;
    // SAFETY: each pointer and length is of one list in memory of its own.
    let answer = unsafe {
        ffi::khs_remember_references(
            touches.lend(marks, side),
            marks.len(),
            ends.lend(given_ends, side),
            given_ends.len(),
            before.lend(&list.before, side),
            list.before.len(),
            behind.lend(&list.behind, side),
            list.behind.len(),
        )
    };
    let list = held(before, behind)?;
    let held = (touches.held().to_vec(), ends.held().to_vec(), list);
    let guarded = touches.is_guarded() && ends.is_guarded();
    guarded.then_some((answer, held))
}

/// Compares the function that aligns with the list.
fn aligning(count: usize, random: &mut Random) -> Tally {
    let mut memories = Aligning::new();
    let mut tally = Tally::new("khs_align_with_references");
    let oracle = |given: &mut Listed| align_with_references(&mut given.0, &given.1);
    let mut compare = |given: &Listed, side: Side| {
        with_and_without(side, |side| {
            tally.compare(given, oracle, || memories.run(given, side));
        });
    };
    small_listed(|given| compare(given, Side::Back));
    for _ in 0..count {
        let mut given = listed(random);
        if random.once_in(3) {
            damage_list(&mut given.1, random);
        }
        compare(&given, random.pick(&[Side::Front, Side::Back]));
    }
    tally
}

/// The memory of an outline and of its list.
struct Aligning {
    outline: Memories,
    before: Memory,
    behind: Memory,
}

impl Aligning {
    /// Memory of its own for each list.
    fn new() -> Self {
        Self {
            outline: Memories::new(),
            before: Memory::new(),
            behind: Memory::new(),
        }
    }

    /// The answer to an outline with a list and what all of its lists hold; none where something beside them was written.
    fn run(&mut self, (points, list): &Listed, side: Side) -> Option<(u8, Listed)> {
        let before = self.before.lend(&list.before, side);
        let behind = self.behind.lend(&list.behind, side);
        let (answer, points) = self.outline.run(points, side, |lent| {
            // SAFETY: each pointer and length is of one list in memory of its own.
            unsafe {
                ffi::khs_align_with_references(
                    lent.originals,
                    lent.originals_len,
                    lent.currents,
                    lent.currents_len,
                    lent.touches,
                    lent.touches_len,
                    lent.ends,
                    lent.ends_len,
                    before,
                    list.before.len(),
                    behind,
                    list.behind.len(),
                )
            }
        })?;
        let list = held(&self.before, &self.behind)?;
        Some((answer, (points, list)))
    }
}

/// What a lent list holds; none where something beside it was written.
fn held(before: &Memory, behind: &Memory) -> Option<References> {
    let guarded = before.is_guarded() && behind.is_guarded();
    guarded.then(|| References {
        before: before.held().to_vec(),
        behind: behind.held().to_vec(),
    })
}

/// A job of the oracle's that is one.
pub fn job(call: usize, random: &mut Random) -> Job {
    let profile = random.pick(&[Profile::Mixed, Profile::Small, Profile::Limits]);
    loop {
        let line = generate::line(call, profile, random);
        let words = text::parse(&line).filter(|words| words[0] == call as i32);
        if let Some(job) = words.and_then(|words| decode(&words)) {
            return job;
        }
    }
}

/// The marks, ends and lists of a job.
fn marked(random: &mut Random) -> Marked {
    match job(18, random) {
        Job::Remember(touches, ends, list) => (touches, ends, list),
        _ => unreachable!("the job is of the call that was asked for"),
    }
}

/// The outline and the list of a job.
fn listed(random: &mut Random) -> Listed {
    match job(19, random) {
        Job::WithReferences(points, list) => (points, list),
        _ => unreachable!("the job is of the call that was asked for"),
    }
}

/// Damages a list: its length, or a number.
fn damage_list(list: &mut References, random: &mut Random) {
    let numbers = if random.coin() {
        &mut list.before
    } else {
        &mut list.behind
    };
    match random.below(4) {
        0 => numbers.resize(random.pick(&[0, 4_096, 4_097, 5_000]), 3),
        1 => drop(numbers.pop()),
        2 => numbers.push(random.bits() as u16),
        _ if numbers.is_empty() => {}
        _ => {
            let at = random.below(numbers.len());
            numbers[at] = random.bits() as u16;
        }
    }
}

/// A list of these lengths.
fn list_of(before: usize, behind: usize) -> References {
    References {
        before: vec![7; before],
        behind: vec![8; behind],
    }
}

/// Outlines of up to four points with every mark and contour, and lists of every length up to three.
fn small_marked(mut compare: impl FnMut(&Marked)) {
    for count in 0..=4 {
        for (touches, ends) in few::marked(count) {
            compare(&(touches, ends, list_of(count, count)));
        }
    }
    for lengths in 0..256usize {
        let len = |ix: usize| lengths >> (2 * ix) & 3;
        let ends = (0..len(1) as u16).collect();
        compare(&(vec![1; len(0)], ends, list_of(len(2), len(3))));
    }
}

/// Outlines of up to three points on few places with every mark and contour and their lists; of up to two points every list; and lists of every length up to three.
fn small_listed(mut compare: impl FnMut(&Listed)) {
    for count in 0..=3 {
        for points in few::placed(count) {
            let list = remembered(&points.touches, &points.ends);
            compare(&(points, list));
        }
    }
    for count in 0..=2 {
        let numbers: Vec<u16> = (0..=count as u16).chain(65_532..=65_535).collect();
        for (touches, ends) in few::marked(count) {
            let points = Points {
                originals: [0, 9][..count].to_vec(),
                currents: [4, 64][..count].to_vec(),
                touches,
                ends,
            };
            for list in few::lists(&numbers, 2 * count) {
                let (before, behind) = list.split_at(count);
                let list = References {
                    before: before.to_vec(),
                    behind: behind.to_vec(),
                };
                compare(&(points.clone(), list));
            }
        }
    }
    for lengths in 0..4_096usize {
        let len = |ix: usize| lengths >> (2 * ix) & 3;
        let points = Points {
            originals: vec![5; len(0)],
            currents: vec![6; len(1)],
            touches: vec![0; len(2)],
            ends: (0..len(3) as u16).collect(),
        };
        compare(&(points, list_of(len(4), len(5))));
    }
}
