//! Catalogues of outlines in one call, timed beside as many calls of the given Rust.

use crate::{
    outlines::{self, Outlines},
    port,
    time::{self, Side},
};
use oracle::{
    calls,
    generate::Random,
    job::{self, Job, Points},
    prepared,
};
use std::hint::black_box;

/// How many outlines a catalogue has.
const SIZES: [usize; 3] = [1, 100, 10_000];
/// The points of each.
const POINTS: usize = 71;

/// The library's side: a catalogue and its currents.
struct Whole<'a>(&'a job::Catalogue, Vec<i32>);

impl Side for Whole<'_> {
    fn restore(&mut self) {
        self.1.clone_from(&self.0.shared.currents);
    }

    fn work(&mut self) {
        let _ = black_box(port::catalogue(self.0).align(black_box(&mut self.1)));
    }
}

/// Prints a line for each kind of outlines and each size.
pub fn run() {
    println!("Median times for an outline of {POINTS} points: a catalogue in one call of the library, beside a call of the Rust for each outline, in nanoseconds");
    println!(
        "{:40} {:>8} {:>10} {:>10} {:>9}",
        "inputs", "outlines", "port", "Rust", "port/Rust"
    );
    for kind in Outlines::ALL {
        for size in SIZES {
            let mut random = Random::new(size as u64);
            let outlines: Vec<Points> = (0..size)
                .map(|_| outlines::outline(kind, POINTS, &mut random))
                .collect();
            let [port, rust] = measure(&outlines);
            let ratio = port / rust;
            println!(
                "{:40} {size:8} {port:10.1} {rust:10.1} {ratio:9.2}",
                kind.title()
            );
        }
    }
}

/// The times of both sides for an outline.
fn measure(outlines: &[Points]) -> [f64; 2] {
    let given = joined(outlines);
    let mut whole = Whole(&given, Vec::new());
    compare(&mut whole, outlines);
    let rust = |points: &Points| prepared::Prepared::new(Job::Weak(points.clone()));
    let mut rusts: Vec<_> = outlines.iter().map(rust).collect();
    time::medians([&mut whole, &mut rusts]).map(|time| time / outlines.len() as f64)
}

/// Outlines one behind another.
fn joined(outlines: &[Points]) -> job::Catalogue {
    fn all<T: Clone>(outlines: &[Points], list: impl Fn(&Points) -> &Vec<T>) -> Vec<T> {
        outlines
            .iter()
            .flat_map(|points| list(points).clone())
            .collect()
    }
    let count =
        |list: fn(&Points) -> usize| outlines.iter().map(|points| list(points) as u16).collect();
    job::Catalogue {
        shared: Points {
            originals: all(outlines, |points| &points.originals),
            currents: all(outlines, |points| &points.currents),
            touches: all(outlines, |points| &points.touches),
            ends: all(outlines, |points| &points.ends),
        },
        point_counts: count(|points| points.originals.len()),
        contour_counts: count(|points| points.ends.len()),
        answers: vec![0; outlines.len()],
    }
}

/// Sees that both sides come to the same, and that every outline is done.
fn compare(whole: &mut Whole<'_>, outlines: &[Points]) {
    whole.restore();
    let answers = port::catalogue(whole.0).align(&mut whole.1);
    assert_eq!(
        answers,
        Ok(vec![Ok(()); outlines.len()]),
        "the port refused"
    );
    let mut each = outlines.to_vec();
    for points in &mut each {
        assert!(calls::align_weak_points(points).is_ok(), "the Rust refused");
    }
    assert_eq!(whole.1, joined(&each).shared.currents, "the results differ");
}
