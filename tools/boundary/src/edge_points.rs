//! Edge points: the lists of an axis, two choices and the lists of points.

use crate::{
    cases::WORDS,
    ffi,
    function::{EDGE, EMPTY_EDGE, SEGMENT},
    lists::{answer_to_lists, push_list, push_records, records, Words},
    memory::{Memory, Side},
    moving::{beyond, each_list, move_by_oracle, Given, Handed},
};
use oracle::{
    generate::{self, Random},
    job::Job,
    limits::POINTS,
    refusals::{refuse, Answer},
    words::encode,
};

/// The flag of a done edge.
const DONE: i32 = 4;

/// What the function is given, as C passes it.
#[derive(Clone, Debug, PartialEq)]
pub struct EdgePoints {
    segments: Words,
    edges: Words,
    snap: i32,
    done_alone: i32,
    currents: Vec<i32>,
    touches: Vec<u8>,
    ends: Vec<u16>,
}

impl Given<5> for EdgePoints {
    const FUNCTION: &'static str = "khs_align_edge_points";
    const CALL: usize = 128;

    fn run(&self, memories: &mut [Memory; 5], side: Side) -> (u8, Self) {
        let [segments, edges, currents, touches, ends] = memories;
        // SAFETY: each pointer and length is of one list in memory of its own, but for a list that cannot be read, which is too long or not of whole records.
        let answer = unsafe {
            ffi::khs_align_edge_points(
                self.segments.lend(segments, side),
                self.segments.len(),
                self.edges.lend(edges, side),
                self.edges.len(),
                self.snap,
                self.done_alone,
                currents.lend(&self.currents, side),
                self.currents.len(),
                touches.lend(&self.touches, side),
                self.touches.len(),
                ends.lend(&self.ends, side),
                self.ends.len(),
            )
        };
        let held = Self {
            segments: self.segments.held(segments),
            edges: self.edges.held(edges),
            currents: currents.held().to_vec(),
            touches: touches.held().to_vec(),
            ends: ends.held().to_vec(),
            ..*self
        };
        (answer, held)
    }

    /// The order of answers that `model` has, of two lists of records and of two of points, and behind it the oracle.
    fn by_oracle(&mut self) -> Answer<()> {
        let records = answer_to_lists(&[(&self.segments, &SEGMENT), (&self.edges, &EDGE)])?;
        let points = self.currents.len();
        refuse(1, points > POINTS || self.touches.len() != points)?;
        let is_choice = |number: &i32| (0..=1).contains(number);
        let are_choices = [self.snap, self.done_alone].iter().all(is_choice);
        let is_job = records && are_choices;
        move_by_oracle(
            &self.job_words(),
            is_job,
            &mut self.currents,
            &mut self.touches,
        )
    }

    fn passed(job: &Job, random: &mut Random) -> Self {
        let Job::EdgePoints(_, _, given) = job else {
            unreachable!("the job is of the call that was asked for");
        };
        let words = encode(job).values;
        let (segments, rest) = records(&words[1..], &SEGMENT, random);
        let (edges, _) = records(rest, &EDGE, random);
        Self {
            segments,
            edges,
            snap: given.snap.into(),
            done_alone: given.done_alone.into(),
            currents: given.currents.clone(),
            touches: given.touches.clone(),
            ends: given.ends.clone(),
        }
    }

    fn damage(&mut self, random: &mut Random) {
        let at = random.below(self.currents.len().max(1));
        match random.below(12) {
            0..=5 if random.coin() => self.edges.damage(&EDGE, random),
            0..=5 => self.segments.damage(&SEGMENT, random),
            6 => self.snap = random.pick(&WORDS),
            7 => self.done_alone = random.pick(&WORDS),
            8 => self
                .currents
                .resize(random.pick(&[0, 4_096, 4_097, 5_000]), 3),
            9 => self.touches.push(9),
            10 => self.ends.push(random.bits() as u16),
            _ => {
                let beyond = beyond(random);
                if let Some(current) = self.currents.get_mut(at) {
                    *current = beyond;
                }
            }
        }
    }

    fn small_jobs(hand_on: &mut impl FnMut(&Job) -> Handed) -> Handed {
        generate::edge_points::small(hand_on)
    }

    /// Both lists of records, and every choice with every word at the ends of fields; and lists of points of every length up to two.
    fn small(mut hand_on: impl FnMut(&Self)) {
        let plain = Self::plain();
        each_list(&plain.segments, &SEGMENT, |segments| {
            hand_on(&Self {
                segments,
                ..plain.clone()
            });
        });
        each_list(&plain.edges, &EDGE, |edges| {
            hand_on(&Self {
                edges,
                ..plain.clone()
            });
        });
        for word in WORDS {
            let snap = word;
            hand_on(&Self {
                snap,
                ..plain.clone()
            });
            let done_alone = word;
            hand_on(&Self {
                done_alone,
                ..plain.clone()
            });
        }
        for lengths in 0..27usize {
            let len = |ix: u32| lengths / 3usize.pow(ix) % 3;
            hand_on(&Self {
                currents: vec![5; len(0)],
                touches: vec![7; len(1)],
                ends: (0..len(2) as u16).collect(),
                ..plain.clone()
            });
        }
    }
}

impl EdgePoints {
    /// The job that asks the oracle for the same.
    fn job_words(&self) -> Vec<i32> {
        let mut job = vec![Self::CALL as i32];
        push_records(&mut job, &self.segments, &SEGMENT);
        push_records(&mut job, &self.edges, &EDGE);
        job.extend([self.snap, self.done_alone]);
        push_list(&mut job, &self.currents);
        push_list(&mut job, &self.touches);
        push_list(&mut job, &self.ends);
        job
    }

    /// Two segments on two edges, around a contour of three points.
    fn plain() -> Self {
        let segment =
            |first, last, edge| [0, 0, 0, 0, 0, 0, 0, 0, 0, -1, -1, first, last, edge, -1];
        let edge = |opos, pos| {
            let mut words = EMPTY_EDGE;
            (words[1], words[2], words[EDGE.flags]) = (opos, pos, DONE);
            words
        };
        Self {
            segments: Words::Open([segment(2, 0, 1), segment(1, 1, 0)].concat()),
            edges: Words::Open([edge(10, 64), edge(5, 9)].concat()),
            snap: 1,
            done_alone: 1,
            currents: vec![7, 8, 9],
            touches: vec![0, 9, 0],
            ends: vec![2],
        }
    }
}
