//! Strong points: the edges and the lists of points.

use crate::{
    ffi,
    function::{EDGE, EMPTY_EDGE},
    lists::{answer_to_lists, push_list, push_records, records, Words},
    memory::{Memory, Side},
    moving::{beyond, each_list, move_by_oracle, Given, Handed},
};
use oracle::{
    generate::{self, Random},
    job::Job,
    refusals::Answer,
    words::encode,
};

/// What the function is given, as C passes it.
#[derive(Clone, Debug, PartialEq)]
pub struct StrongPoints {
    edges: Words,
    fonts: Vec<i16>,
    originals: Vec<i32>,
    currents: Vec<i32>,
    touches: Vec<u8>,
    weak: Vec<u8>,
}

impl Given<6> for StrongPoints {
    const FUNCTION: &'static str = "khs_align_strong_points";
    const CALL: usize = 131;

    fn run(&self, memories: &mut [Memory; 6], side: Side) -> (u8, Self) {
        let [edges, fonts, originals, currents, touches, weak] = memories;
        // SAFETY: each pointer and length is of one list in memory of its own, but for a list that cannot be read, which is too long or not of whole records.
        let answer = unsafe {
            ffi::khs_align_strong_points(
                self.edges.lend(edges, side),
                self.edges.len(),
                fonts.lend(&self.fonts, side),
                self.fonts.len(),
                originals.lend(&self.originals, side),
                self.originals.len(),
                currents.lend(&self.currents, side),
                self.currents.len(),
                touches.lend(&self.touches, side),
                self.touches.len(),
                weak.lend(&self.weak, side),
                self.weak.len(),
            )
        };
        let held = Self {
            edges: self.edges.held(edges),
            fonts: fonts.held().to_vec(),
            originals: originals.held().to_vec(),
            currents: currents.held().to_vec(),
            touches: touches.held().to_vec(),
            weak: weak.held().to_vec(),
        };
        (answer, held)
    }

    /// The order of answers that `model` has, and behind it the oracle.
    fn by_oracle(&mut self) -> Answer<()> {
        let is_job = answer_to_lists(&[(&self.edges, &EDGE)])?;
        move_by_oracle(
            &self.job_words(),
            is_job,
            &mut self.currents,
            &mut self.touches,
        )
    }

    fn passed(job: &Job, random: &mut Random) -> Self {
        let Job::Strong(_, given) = job else {
            unreachable!("the job is of the call that was asked for");
        };
        let words = encode(job).values;
        let (edges, _) = records(&words[1..], &EDGE, random);
        Self {
            edges,
            fonts: given.fonts.clone(),
            originals: given.originals.clone(),
            currents: given.currents.clone(),
            touches: given.touches.clone(),
            weak: given.weak.clone(),
        }
    }

    fn damage(&mut self, random: &mut Random) {
        let at = random.below(self.fonts.len().max(1));
        let beyond = beyond(random);
        match random.below(12) {
            0..=4 => self.edges.damage(&EDGE, random),
            5 => {
                let count = random.pick(&[0, 4_096, 4_097, 5_000]);
                self.fonts.resize(count, 3);
                if random.coin() {
                    self.originals.resize(count, 3);
                    self.currents.resize(count, 3);
                    self.touches.resize(count, 0);
                    self.weak.resize(count, 0);
                }
            }
            6 => self.fonts.push(random.bits() as i16),
            7 => drop(self.weak.pop()),
            8 => self.touches.push(9),
            9 => {
                let marks = self.touches.iter_mut().chain(&mut self.weak);
                marks.for_each(|mark| *mark = random.pick(&[0, 0, 0, 1, 255]));
            }
            10 => {
                if let Some(original) = self.originals.get_mut(at) {
                    *original = beyond;
                }
            }
            _ => {
                if let Some(current) = self.currents.get_mut(at) {
                    *current = beyond;
                }
            }
        }
    }

    fn small_jobs(hand_on: &mut impl FnMut(&Job) -> Handed) -> Handed {
        generate::strong::small(hand_on)
    }

    /// The list of edges, and lists of points of every length up to two.
    fn small(mut hand_on: impl FnMut(&Self)) {
        let plain = Self::plain();
        each_list(&plain.edges, &EDGE, |edges| {
            hand_on(&Self {
                edges,
                ..plain.clone()
            });
        });
        for lengths in 0..243usize {
            let len = |ix: u32| lengths / 3usize.pow(ix) % 3;
            hand_on(&Self {
                edges: plain.edges.clone(),
                fonts: vec![5; len(0)],
                originals: vec![7; len(1)],
                currents: vec![9; len(2)],
                touches: vec![0; len(3)],
                weak: vec![0; len(4)],
            });
        }
    }
}

impl StrongPoints {
    /// The job that asks the oracle for the same.
    fn job_words(&self) -> Vec<i32> {
        let mut job = vec![Self::CALL as i32];
        push_records(&mut job, &self.edges, &EDGE);
        push_list(&mut job, &self.fonts);
        push_list(&mut job, &self.originals);
        push_list(&mut job, &self.currents);
        push_list(&mut job, &self.touches);
        push_list(&mut job, &self.weak);
        job
    }

    /// Two edges, and a point on either side of them, on them and between.
    fn plain() -> Self {
        let edge = |fpos, pos| {
            let mut words = EMPTY_EDGE;
            (words[0], words[1], words[2]) = (fpos, fpos, pos);
            words
        };
        Self {
            edges: Words::Open([edge(10, 64), edge(20, 128)].concat()),
            fonts: vec![5, 10, 15, 20, 25],
            originals: vec![5, 10, 15, 20, 25],
            currents: vec![1, 2, 3, 4, 5],
            touches: vec![0; 5],
            weak: vec![0; 5],
        }
    }
}
