//! Catalogues of outlines.

use crate::{
    ffi,
    memory::{with_and_without, Memory, Side},
    tally::Tally,
};
use oracle::{
    calls,
    decode::decode,
    generate::{self, Profile, Random},
    job::{Catalogue, Job, Points},
    text,
};

/// The memory of a catalogue's seven lists.
struct Memories([Memory; 7]);

impl Memories {
    /// The answer to a catalogue and what its lists hold; none where something beside them was written.
    fn run(&mut self, given: &Catalogue, side: Side) -> Option<(u8, Catalogue)> {
        let [originals, currents, touches, ends, points, contours, answers] = &mut self.0;
        let shared = &given.shared;
        // SAFETY: each pointer and length is of one list in memory of its own.
        let answer = unsafe {
            ffi::khs_align_catalogue(
                originals.lend(&shared.originals, side),
                shared.originals.len(),
                currents.lend(&shared.currents, side),
                shared.currents.len(),
                touches.lend(&shared.touches, side),
                shared.touches.len(),
                ends.lend(&shared.ends, side),
                shared.ends.len(),
                points.lend(&given.point_counts, side),
                given.point_counts.len(),
                contours.lend(&given.contour_counts, side),
                given.contour_counts.len(),
                answers.lend(&given.answers, side),
                given.answers.len(),
            )
        };
        let shared = Points {
            originals: originals.held().to_vec(),
            currents: currents.held().to_vec(),
            touches: touches.held().to_vec(),
            ends: ends.held().to_vec(),
        };
        let held = Catalogue {
            shared,
            point_counts: points.held().to_vec(),
            contour_counts: contours.held().to_vec(),
            answers: answers.held().to_vec(),
        };
        self.0
            .iter()
            .all(Memory::is_guarded)
            .then_some((answer, held))
    }
}

/// Compares so many random catalogues, and small ones one after the other.
pub fn catalogues(count: usize, random: &mut Random) -> Tally {
    let mut memories = Memories([(); 7].map(|()| Memory::new()));
    let mut tally = Tally::new("khs_align_catalogue");
    let mut compare = |given: &Catalogue, side: Side| {
        with_and_without(side, |side| {
            tally.compare(given, calls::align_catalogue, || memories.run(given, side));
        });
    };
    small(|given| compare(given, Side::Back));
    for _ in 0..count {
        let given = catalogue(random);
        compare(&given, random.pick(&[Side::Front, Side::Back]));
    }
    tally
}

/// A catalogue of the oracle's, as it is or damaged.
fn catalogue(random: &mut Random) -> Catalogue {
    let profile = random.pick(&[Profile::Mixed, Profile::Small, Profile::Limits]);
    loop {
        let line = generate::line(17, profile, random);
        let job = text::parse(&line).and_then(|words| decode(&words));
        if let Some(Job::Catalogue(mut catalogue)) = job {
            if random.coin() {
                damage(&mut catalogue, random);
            }
            return catalogue;
        }
    }
}

/// Damages one list: its length, or an entry.
fn damage(given: &mut Catalogue, random: &mut Random) {
    let outline = random.below(given.point_counts.len().max(1));
    let point = random.below(given.shared.originals.len().max(1));
    let beyond = random.pick(&[i32::MIN, -65_536, 65_536, i32::MAX]);
    let step = random.pick(&[1, 2, u16::MAX, u16::MAX - 1]);
    let add = |counts: &mut [u16], ix: usize, step: u16| {
        if let Some(count) = counts.get_mut(ix) {
            *count = count.wrapping_add(step);
        }
    };
    match random.below(9) {
        0 => add(&mut given.point_counts, outline, step),
        1 => add(&mut given.contour_counts, outline, step),
        2 => {
            add(&mut given.point_counts, outline, 1);
            add(&mut given.point_counts, outline + 1, u16::MAX);
        }
        3 => given.answers.push(9),
        4 => drop(given.contour_counts.pop()),
        5 => drop(given.shared.touches.pop()),
        6 => given.shared.currents.push(5),
        7 => given.shared.ends.push(random.bits() as u16),
        _ => given
            .shared
            .originals
            .iter_mut()
            .skip(point)
            .take(1)
            .for_each(|place| *place = beyond),
    }
}

/// Lists of every length up to two, with every pair of counts up to two.
fn small(mut compare: impl FnMut(&Catalogue)) {
    let mut counts = vec![vec![]];
    for first in 0..=2 {
        counts.push(vec![first]);
        counts.extend((0..=2).map(|second| vec![first, second]));
    }
    for lengths in 0..3usize.pow(5) {
        let len = |ix: u32| lengths / 3usize.pow(ix) % 3;
        for point_counts in &counts {
            for contour_counts in &counts {
                compare(&Catalogue {
                    shared: Points {
                        originals: vec![5; len(0)],
                        currents: vec![6; len(1)],
                        touches: [1, 0][..len(2)].to_vec(),
                        ends: (0..len(3) as u16).collect(),
                    },
                    point_counts: point_counts.clone(),
                    contour_counts: contour_counts.clone(),
                    answers: vec![9; len(4)],
                });
            }
        }
    }
}
