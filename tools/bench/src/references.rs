//! Alignment with remembered references, timed beside alignment without and beside the given Rust.

use crate::{
    outlines::{self, Outlines},
    port,
    time::{self, Side},
};
use oracle::{
    calls,
    generate::Random,
    job::{Job, Points, References},
    prepared,
    references::remembered,
};
use std::hint::black_box;

/// The kinds of outlines, and their points.
const KINDS: [Outlines; 3] = [
    Outlines::Glyph,
    Outlines::Scattered(4),
    Outlines::Scattered(16),
];
const SIZES: [usize; 5] = [16, 64, 256, 1_024, 4_096];

extern "C" {
    fn khs_remember_references(
        touched: *const u8,
        touched_len: u64,
        ends: *const u16,
        ends_len: u64,
        before: *mut u16,
        before_len: u64,
        behind: *mut u16,
        behind_len: u64,
    ) -> u8;
    fn khs_align_with_references(
        originals: *const i32,
        originals_len: u64,
        currents: *mut i32,
        currents_len: u64,
        touched: *const u8,
        touched_len: u64,
        ends: *const u16,
        ends_len: u64,
        before: *const u16,
        before_len: u64,
        behind: *const u16,
        behind_len: u64,
    ) -> u8;
}

/// The library's side: an outline with its list, and its currents.
struct Listed {
    points: Points,
    list: References,
    currents: Vec<i32>,
}

impl Listed {
    /// An outline with its list, which the library makes.
    fn new(points: &Points) -> Self {
        let mut remembering = Remembering::new(points);
        assert_eq!(remembering.remember(), 0, "the port refused");
        Self {
            points: points.clone(),
            list: remembering.list,
            currents: Vec::new(),
        }
    }

    /// Aligns the currents; the answer.
    fn align(&mut self) -> u8 {
        let Points {
            originals,
            touches,
            ends,
            ..
        } = &self.points;
        let References { before, behind } = &self.list;
        // SAFETY: each pointer and length is of one live slice, and the currents are lent to this call alone.
        unsafe {
            khs_align_with_references(
                originals.as_ptr(),
                originals.len() as u64,
                self.currents.as_mut_ptr(),
                self.currents.len() as u64,
                touches.as_ptr(),
                touches.len() as u64,
                ends.as_ptr(),
                ends.len() as u64,
                before.as_ptr(),
                before.len() as u64,
                behind.as_ptr(),
                behind.len() as u64,
            )
        }
    }
}

impl Side for Listed {
    fn restore(&mut self) {
        self.currents.clone_from(&self.points.currents);
    }

    fn work(&mut self) {
        black_box(black_box(self).align());
    }
}

/// The library's side: an outline whose list is made.
struct Remembering {
    touches: Vec<u8>,
    ends: Vec<u16>,
    list: References,
}

impl Remembering {
    /// An outline, and room for its list.
    fn new(points: &Points) -> Self {
        let zeros = vec![0; points.touches.len()];
        Self {
            touches: points.touches.clone(),
            ends: points.ends.clone(),
            list: References {
                before: zeros.clone(),
                behind: zeros,
            },
        }
    }

    /// Makes the list; the answer.
    fn remember(&mut self) -> u8 {
        let References { before, behind } = &mut self.list;
        // SAFETY: each pointer and length is of one live slice, and both lists are lent to this call alone.
        unsafe {
            khs_remember_references(
                self.touches.as_ptr(),
                self.touches.len() as u64,
                self.ends.as_ptr(),
                self.ends.len() as u64,
                before.as_mut_ptr(),
                before.len() as u64,
                behind.as_mut_ptr(),
                behind.len() as u64,
            )
        }
    }
}

impl Side for Remembering {
    fn restore(&mut self) {}

    fn work(&mut self) {
        black_box(black_box(self).remember());
    }
}

/// Prints a line for each kind of outlines and each size.
pub fn run() {
    println!("Median times for an outline: aligned with the list of its references, beside aligned without and beside the Rust; and making the list; in nanoseconds");
    println!(
        "{:40} {:>6} {:>10} {:>10} {:>10} {:>12} {:>9} {:>10}",
        "inputs", "points", "with", "without", "Rust", "with/without", "with/Rust", "making"
    );
    for kind in KINDS {
        for size in SIZES {
            let mut random = Random::new(size as u64);
            let outlines: Vec<Points> = (0..4_096 / size)
                .map(|_| outlines::outline(kind, size, &mut random))
                .collect();
            let [with, without, rust, making] = measure(&outlines);
            println!(
                "{:40} {size:6} {with:10.1} {without:10.1} {rust:10.1} {:12.2} {:9.2} {making:10.1}",
                kind.title(),
                with / without,
                with / rust
            );
        }
    }
}

/// The times of the four sides for an outline.
fn measure(outlines: &[Points]) -> [f64; 4] {
    let mut with: Vec<_> = outlines.iter().map(Listed::new).collect();
    with.iter_mut().for_each(compare);
    let without = |points: &Points| port::Prepared::new(Job::Weak(points.clone()), &[]);
    let rust = |points: &Points| prepared::Prepared::new(Job::Weak(points.clone()));
    let mut without: Vec<_> = outlines.iter().map(without).collect();
    let mut rust: Vec<_> = outlines.iter().map(rust).collect();
    let mut making: Vec<_> = outlines.iter().map(Remembering::new).collect();
    time::medians([&mut with, &mut without, &mut rust, &mut making])
        .map(|time| time / outlines.len() as f64)
}

/// Sees that the library and the Rust come to the same, and that the list is right.
fn compare(listed: &mut Listed) {
    let mut points = listed.points.clone();
    let list = remembered(&points.touches, &points.ends);
    assert_eq!(listed.list, list, "the lists differ");
    listed.restore();
    assert_eq!(listed.align(), 0, "the port refused");
    assert_eq!(calls::align_weak_points(&mut points), Ok(()));
    assert_eq!(listed.currents, points.currents, "the results differ");
}
