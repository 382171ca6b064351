//! Points that edges move: what the comparisons of edge points, of strong points and of fitting share.

use crate::{
    cases::WORDS,
    function::Record,
    lists::Words,
    memory::{with_and_without, Memory, Side},
    model::NOT_WORDS,
    references::job,
    tally::Tally,
};
use oracle::{
    answer,
    decode::decode,
    generate::Random,
    job::Job,
    refusals::{refuse, Answer, Refusal},
};
use std::{convert::Infallible, fmt::Debug};

/// That a job was handed on.
pub type Handed = Result<(), Infallible>;

/// What a function is given, as C passes it: so many lists among it.
pub trait Given<const LISTS: usize>: Clone + Debug + PartialEq {
    /// The function.
    const FUNCTION: &'static str;
    /// The call's word in a job.
    const CALL: usize;

    /// A job as C passes it; of a list that is too long some records are made up.
    fn passed(job: &Job, random: &mut Random) -> Self;

    /// Damages what is given in one way.
    fn damage(&mut self, random: &mut Random);

    /// Hands on every small job of the oracle.
    fn small_jobs(hand_on: &mut impl FnMut(&Job) -> Handed) -> Handed;

    /// Hands on other small cases: every list of records, choice and length of the lists of points.
    fn small(hand_on: impl FnMut(&Self));

    /// What the function has to do.
    fn by_oracle(&mut self) -> Answer<()>;

    /// Calls the function, and hands back its answer and what its lists then hold.
    fn run(&self, memories: &mut [Memory; LISTS], side: Side) -> (u8, Self);
}

/// Compares a function on so many random cases, and on small ones one after the other.
pub fn compare<G: Given<LISTS>, const LISTS: usize>(count: usize, random: &mut Random) -> Tally {
    let mut memories = [(); LISTS].map(|()| Memory::new());
    let mut tally = Tally::new(G::FUNCTION);
    let mut compare = |given: &G, side: Side| {
        with_and_without(side, |side| {
            tally.compare(given, G::by_oracle, || {
                let outcome = given.run(&mut memories, side);
                // none where something beside a list was written
                memories.iter().all(Memory::is_guarded).then_some(outcome)
            });
        });
    };
    let made_up = &mut Random::new(0);
    let handed = G::small_jobs(&mut |job| {
        compare(&G::passed(job, made_up), Side::Back);
        Ok(())
    });
    assert_eq!(handed, Ok(()));
    G::small(|given| compare(given, Side::Back));
    for _ in 0..count {
        let given = random_case(random);
        compare(&given, random.pick(&[Side::Front, Side::Back]));
    }
    tally
}

/// A job of the oracle, as it is or damaged up to three times.
fn random_case<G: Given<LISTS>, const LISTS: usize>(random: &mut Random) -> G {
    let job = job(G::CALL, random);
    let mut given = G::passed(&job, random);
    for _ in 0..random.pick(&[0, 0, 1, 1, 2, 3]) {
        given.damage(random);
    }
    given
}

/// A number that is no coordinate.
pub fn beyond(random: &mut Random) -> i32 {
    random.pick(&[i32::MIN, -65_536, 65_536, i32::MAX])
}

/// Hands on a list of records at every length to two above the limit, and with every word of it at the ends of fields.
pub fn each_list(words: &Words, record: &Record, mut hand_on: impl FnMut(Words)) {
    let many = words.open()[..record.words].repeat(record.most + 2);
    for len in 0..=many.len() {
        hand_on(Words::Open(many[..len].to_vec()));
    }
    for at in 0..words.len() {
        for word in WORDS {
            let mut changed = words.open().to_vec();
            changed[at] = word;
            hand_on(Words::Open(changed));
        }
    }
}

/// What the oracle makes of currents and touch marks by the words of a job, which they are exactly where all are words of their fields.
pub fn move_by_oracle(
    job: &[i32],
    is_job: bool,
    currents: &mut Vec<i32>,
    touches: &mut Vec<u8>,
) -> Answer<()> {
    let words = told_by_oracle(job, is_job)?;
    let (moved, marks) = words.split_at(1 + currents.len());
    *currents = moved[1..].to_vec();
    *touches = marks[1..].iter().map(|mark| *mark as u8).collect();
    Ok(())
}

/// What the oracle answers behind its number to the words of a job, which they are exactly where all are words of their fields.
pub fn told_by_oracle(job: &[i32], is_job: bool) -> Answer<Vec<i32>> {
    let job = decode(job);
    assert_eq!(is_job, job.is_some(), "the oracle reads words otherwise");
    let Some(job) = job else {
        return Err(Refusal(NOT_WORDS.into()));
    };
    let words = answer::answer(job).values;
    refuse(words[0], words[0] != 0)?;
    Ok(words[1..].to_vec())
}
