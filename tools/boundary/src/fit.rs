//! Fitting an axis: its lists, the numbers, the standards, the lists of points and what is handed back.

use crate::{
    cases::{damage_standards, damage_word, WORDS},
    ffi,
    function::{EDGE, EMPTY_EDGE, SEGMENT},
    lists::{answer_to_lists, push_list, push_records, records, Words},
    memory::{Memory, Side},
    model::NOT_WORDS,
    moving::{beyond, each_list, told_by_oracle, Given, Handed},
};
use oracle::{
    generate::{self, Random},
    job::{Job, WidthRule},
    limits::{FIT_NUMBERS, POINTS},
    refusals::{refuse, Answer},
    words::encode,
};

/// The words that are handed back.
const FITTED: usize = 9;
/// Of the numbers the width rule, and the one that is no choice: the least width.
const RULE: usize = 5;
const LEAST: usize = 7;

/// What the function is given, as C passes it.
#[derive(Clone, Debug, PartialEq)]
pub struct FitAxis {
    segments: Words,
    edges: Words,
    numbers: Vec<i32>,
    standards: Vec<i32>,
    fonts: Vec<i16>,
    originals: Vec<i32>,
    currents: Vec<i32>,
    touches: Vec<u8>,
    weak: Vec<u8>,
    ends: Vec<u16>,
    fitted: Vec<i32>,
}

impl Given<11> for FitAxis {
    const FUNCTION: &'static str = "khs_fit_axis";
    const CALL: usize = 129;

    fn run(&self, memories: &mut [Memory; 11], side: Side) -> (u8, Self) {
        let [segments, edges, numbers, standards, fonts, originals, currents, touches, weak, ends, fitted] =
            memories;
        // SAFETY: each pointer and length is of one list in memory of its own, but for a list that cannot be read, which is too long or not of whole records.
        let answer = unsafe {
            ffi::khs_fit_axis(
                self.segments.lend(segments, side),
                self.segments.len(),
                self.edges.lend(edges, side).cast_mut(),
                self.edges.len(),
                numbers.lend(&self.numbers, side),
                self.numbers.len(),
                standards.lend(&self.standards, side),
                self.standards.len(),
                fonts.lend(&self.fonts, side),
                self.fonts.len(),
                originals.lend(&self.originals, side),
                self.originals.len(),
                currents.lend(&self.currents, side),
                self.currents.len(),
                touches.lend(&self.touches, side),
                self.touches.len(),
                weak.lend(&self.weak, side),
                self.weak.len(),
                ends.lend(&self.ends, side),
                self.ends.len(),
                fitted.lend(&self.fitted, side),
                self.fitted.len(),
            )
        };
        let held = Self {
            segments: self.segments.held(segments),
            edges: self.edges.held(edges),
            numbers: numbers.held().to_vec(),
            standards: standards.held().to_vec(),
            fonts: fonts.held().to_vec(),
            originals: originals.held().to_vec(),
            currents: currents.held().to_vec(),
            touches: touches.held().to_vec(),
            weak: weak.held().to_vec(),
            ends: ends.held().to_vec(),
            fitted: fitted.held().to_vec(),
        };
        (answer, held)
    }

    /// The order of answers that `model` has, of two lists of records, of the numbers and of what is handed back, which have one length each, and of the lists of points; and behind it the
    /// oracle.
    fn by_oracle(&mut self) -> Answer<()> {
        let lengths = self.numbers.len() == FIT_NUMBERS && self.fitted.len() == FITTED;
        refuse(NOT_WORDS.into(), !lengths)?;
        let records = answer_to_lists(&[(&self.segments, &SEGMENT), (&self.edges, &EDGE)])?;
        refuse(1, !self.are_points())?;
        let told = told_by_oracle(&self.job_words(), records && self.are_choices())?;
        let (fitted, lists) = told.split_at(FITTED);
        let (edges, points) = lists.split_at(1 + self.edges.len());
        let (currents, touches) = points.split_at(1 + self.currents.len());
        self.fitted = fitted.to_vec();
        self.edges = Words::Open(edges[1..].to_vec());
        self.currents = currents[1..].to_vec();
        self.touches = touches[1..].iter().map(|mark| *mark as u8).collect();
        Ok(())
    }

    fn passed(job: &Job, random: &mut Random) -> Self {
        let Job::Fit(_, _, given) = job else {
            unreachable!("the job is of the call that was asked for");
        };
        let words = encode(job).values;
        let (segments, rest) = records(&words[1..], &SEGMENT, random);
        let (edges, rest) = records(rest, &EDGE, random);
        let (WidthRule::Keep(standards) | WidthRule::Snap(standards)) = &given.rule;
        Self {
            segments,
            edges,
            numbers: rest[1..=FIT_NUMBERS].to_vec(),
            standards: standards.clone(),
            fonts: given.fonts.clone(),
            originals: given.originals.clone(),
            currents: given.currents.clone(),
            touches: given.touches.clone(),
            weak: given.weak.clone(),
            ends: given.ends.clone(),
            fitted: vec![random.bits() as i32; FITTED],
        }
    }

    fn damage(&mut self, random: &mut Random) {
        match random.below(16) {
            0..=2 => self.segments.damage(&SEGMENT, random),
            3..=5 => self.edges.damage(&EDGE, random),
            6..=7 => damage_word(&mut self.numbers, random),
            8 => self.numbers.resize(random.pick(&[0, 8, 10, 18]), 1),
            9 => self.fitted.resize(random.pick(&[0, 8, 10, 18]), 1),
            10..=11 => damage_standards(&mut self.standards, random),
            _ => self.damage_points(random),
        }
    }

    fn small_jobs(hand_on: &mut impl FnMut(&Job) -> Handed) -> Handed {
        generate::fit::small(hand_on)
    }

    /// Both lists of records; the numbers and what is handed back at every length up to twelve, and every number with every word at the ends of fields; standards of every length that a
    /// rule may have, and more; and lists of points of every length up to two.
    fn small(mut hand_on: impl FnMut(&Self)) {
        let plain = Self::plain();
        each_list(&plain.segments, &SEGMENT, |segments| {
            hand_on(&Self {
                segments,
                ..plain.clone()
            });
        });
        each_list(&plain.edges, &EDGE, |edges| {
            hand_on(&Self {
                edges,
                ..plain.clone()
            });
        });
        for lengths in 0..13 * 13 {
            let mut given = plain.clone();
            given.numbers.resize(lengths % 13, 0);
            given.fitted.resize(lengths / 13, 0);
            hand_on(&given);
        }
        for at in 0..FIT_NUMBERS {
            for word in WORDS {
                let mut given = plain.clone();
                given.numbers[at] = word;
                hand_on(&given);
            }
        }
        for count in 0..20 {
            let mut given = plain.clone();
            given.standards = (1..=count).collect();
            hand_on(&given);
            given.numbers[RULE] = 1;
            hand_on(&given);
        }
        for lengths in 0..729usize {
            let len = |ix: u32| lengths / 3usize.pow(ix) % 3;
            hand_on(&Self {
                fonts: vec![5; len(0)],
                originals: vec![7; len(1)],
                currents: vec![9; len(2)],
                touches: vec![0; len(3)],
                weak: vec![0; len(4)],
                ends: (0..len(5) as u16).collect(),
                segments: Words::Open(Vec::new()),
                edges: Words::Open(Vec::new()),
                ..plain.clone()
            });
        }
    }
}

impl FitAxis {
    /// Whether the lists of points are of one length, and no longer than they may be.
    fn are_points(&self) -> bool {
        let lengths = [
            self.originals.len(),
            self.currents.len(),
            self.touches.len(),
            self.weak.len(),
        ];
        let count = self.fonts.len();
        count <= POINTS && lengths.iter().all(|len| *len == count)
    }

    /// Whether every number but the least width is a choice.
    fn are_choices(&self) -> bool {
        let mut numbers = self.numbers.iter().enumerate();
        numbers.all(|(ix, number)| ix == LEAST || (0..=1).contains(number))
    }

    /// Changes the lists of points: the length of one or of all, a coordinate, an end, or the marks.
    fn damage_points(&mut self, random: &mut Random) {
        let at = random.below(self.fonts.len().max(1));
        let beyond = beyond(random);
        match random.below(8) {
            0 => self.resize_points(random.pick(&[0, 4_096, 4_097, 5_000])),
            1 => self.fonts.push(random.bits() as i16),
            2 => drop(self.weak.pop()),
            3 => self.touches.push(9),
            4 => self.ends.push(random.bits() as u16),
            5 => {
                let marks = self.touches.iter_mut().chain(&mut self.weak);
                marks.for_each(|mark| *mark = random.pick(&[0, 0, 0, 1, 255]));
            }
            6 => {
                if let Some(original) = self.originals.get_mut(at) {
                    *original = beyond;
                }
            }
            _ => {
                if let Some(current) = self.currents.get_mut(at) {
                    *current = beyond;
                }
            }
        }
    }

    /// Gives all lists of points a length.
    fn resize_points(&mut self, count: usize) {
        self.fonts.resize(count, 3);
        self.originals.resize(count, 3);
        self.currents.resize(count, 3);
        self.touches.resize(count, 0);
        self.weak.resize(count, 0);
    }

    /// The job that asks the oracle for the same.
    fn job_words(&self) -> Vec<i32> {
        let mut job = vec![Self::CALL as i32];
        push_records(&mut job, &self.segments, &SEGMENT);
        push_records(&mut job, &self.edges, &EDGE);
        push_list(&mut job, &self.numbers);
        push_list(&mut job, &self.standards);
        push_list(&mut job, &self.fonts);
        push_list(&mut job, &self.originals);
        push_list(&mut job, &self.currents);
        push_list(&mut job, &self.touches);
        push_list(&mut job, &self.weak);
        push_list(&mut job, &self.ends);
        job
    }

    /// A stem of two edges, each with a segment of one point, and a point between them.
    fn plain() -> Self {
        let segment = |point, edge| [0, 0, 0, 0, 0, 0, 0, 0, 0, -1, -1, point, point, edge, -1];
        let edge = |place, link| {
            let mut words = EMPTY_EDGE;
            (words[0], words[1], words[2]) = (place, place, place);
            words[EDGE.link] = link;
            words
        };
        Self {
            segments: Words::Open([segment(0, 0), segment(2, 1)].concat()),
            edges: Words::Open([edge(0, 1), edge(61, 0)].concat()),
            numbers: vec![1, 0, 0, 1, 0, 0, 0, 32, 0],
            standards: vec![40, 64],
            fonts: vec![0, 30, 61],
            originals: vec![0, 30, 61],
            currents: vec![0, 30, 61],
            touches: vec![0; 3],
            weak: vec![0; 3],
            ends: vec![2],
            fitted: vec![77; FITTED],
        }
    }
}
