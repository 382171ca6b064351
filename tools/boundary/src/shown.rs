//! What is shown: the lists of an outline, how many times it is magnified, and the places of two numbers.

use crate::{
    ffi,
    memory::{with_and_without, Memory, Side},
    path::{damage, small},
    references::job,
    tally::Tally,
};
use oracle::{
    generate::Random,
    job::{Job, Walk},
    refusals::Answer,
    shown::count_shown,
};

/// What the function is given, as C passes it, and the two places.
#[derive(Clone, Debug, PartialEq)]
struct Given {
    walk: Walk,
    magnify: i32,
    black: u32,
    euler: i32,
}

impl Given {
    /// An outline, with what stands in the places before a call.
    fn new(walk: Walk, magnify: i32) -> Self {
        Self {
            walk,
            magnify,
            black: 99,
            euler: -99,
        }
    }
}

/// Compares the function on so many random cases, and on small ones one after the other.
pub fn shown(count: usize, random: &mut Random) -> Tally {
    let mut memories = [(); 6].map(|()| Memory::new());
    let mut tally = Tally::new("khs_count_shown");
    let mut compare = |given: &Given, side: Side| {
        with_and_without(side, |side| {
            tally.compare(given, by_oracle, || run(&mut memories, given, side));
        });
    };
    for places in [[0, -3, 64, 65_535], [0, 32, 96, -1_023], [-96, 64, 160, 0]] {
        small(places, |walk| {
            for magnify in [1, 64, 0, 65] {
                compare(&Given::new(walk.clone(), magnify), Side::Back);
            }
        });
    }
    for _ in 0..count {
        let given = random_case(random);
        compare(&given, random.pick(&[Side::Front, Side::Back]));
    }
    tally
}

/// Calls the function; none where something beside a list or a place was written.
fn run(memories: &mut [Memory; 6], given: &Given, side: Side) -> Option<(u8, Given)> {
    let [xs, ys, marks, ends, black, euler] = memories;
    let walk = &given.walk;
    // SAFETY: each pointer and length is of one list in memory of its own, and so is each place.
    let answer = unsafe {
        ffi::khs_count_shown(
            xs.lend(&walk.xs, side),
            walk.xs.len(),
            ys.lend(&walk.ys, side),
            walk.ys.len(),
            marks.lend(&walk.marks, side),
            walk.marks.len(),
            ends.lend(&walk.ends, side),
            walk.ends.len(),
            given.magnify,
            black.lend(&[given.black], side),
            euler.lend(&[given.euler], side),
        )
    };
    let held = Given {
        walk: Walk {
            xs: xs.held().to_vec(),
            ys: ys.held().to_vec(),
            marks: marks.held().to_vec(),
            ends: ends.held().to_vec(),
        },
        magnify: given.magnify,
        black: black.held()[0],
        euler: euler.held()[0],
    };
    memories
        .iter()
        .all(Memory::is_guarded)
        .then_some((answer, held))
}

/// What the function has to do.
fn by_oracle(given: &mut Given) -> Answer<()> {
    let shown = count_shown(&given.walk, given.magnify)?;
    given.black = shown.black as u32;
    given.euler = shown.euler;
    Ok(())
}

/// A job of the oracle, as it is or damaged.
fn random_case(random: &mut Random) -> Given {
    let Job::Shown(mut walk, mut magnify) = job(132, random) else {
        unreachable!("the job is of the call that was asked for");
    };
    if random.coin() {
        damage(&mut walk, random);
    }
    if random.once_in(8) {
        magnify = random.pick(&[i32::MIN, -1, 0, 1, 64, 65, 4_161, i32::MAX]);
    }
    Given::new(walk, magnify)
}
