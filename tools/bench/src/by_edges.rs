//! The points that are timed while edges move them: edge points and strong points.

use crate::{
    cases::{self, Case},
    edges,
    outlines::{self, Outlines},
    records, segments,
};
use khsaemudol::EDGE_WORDS;
use oracle::generate::Random;
use std::iter;

/// The sizes of their outlines.
const SIZES: [usize; 5] = [16, 64, 256, 1_024, 4_096];

/// The points of a round.
const ROUND: usize = 4_096;

/// Points that go to the edges of their segments, or with them: an edge for each contour of 16 points, two edges at least and 128 at most.
pub fn points() -> Vec<Case> {
    let mut cases = Vec::new();
    for (snap, title) in [(1, "to the edge"), (0, "with the edge")] {
        for size in SIZES {
            let mut random = Random::new(size as u64);
            let jobs = (0..ROUND / size).map(|_| moved(size, snap, &mut random));
            let (kind, jobs) = (title.to_string(), jobs.collect());
            cases.push(Case::own("points", kind, size, jobs, cases::far_position));
        }
    }
    cases
}

/// A job of edge points.
fn moved(size: usize, snap: i32, random: &mut Random) -> Vec<i32> {
    let contours = size / segments::CONTOUR;
    let edges = contours.clamp(2, 128);
    let points = outlines::in_contours(Outlines::Glyph, size, contours, random);
    let segments = segments::around(contours, edges);
    let mut words = vec![128];
    words.extend(records::words(segments.len(), &segments));
    words.push(edges as i32);
    words.extend(edges::placed(edges, random));
    words.extend([snap, 0]);
    // the call is given all that weak points are but the originals
    words.extend(&outlines::job(&points)[2 + size..]);
    words
}

/// Strong points among some edges.
pub fn strong() -> Vec<Case> {
    let mut cases = Vec::new();
    for edges in [8, 32, 128] {
        for size in SIZES {
            let mut random = Random::new(size as u64);
            let jobs = (0..ROUND / size).map(|_| among(edges, size, &mut random));
            let (kind, jobs) = (format!("among {edges} edges"), jobs.collect());
            cases.push(Case::own("strong", kind, size, jobs, far_current));
        }
    }
    cases
}

/// A job of strong points, a little beyond the edges too, at their originals, which are their font positions: one in four is touched, and one in four weak.
fn among(edges: usize, size: usize, random: &mut Random) -> Vec<i32> {
    let placed = edges::placed(edges, random);
    let (first, last) = (placed[0], placed[EDGE_WORDS * (edges - 1)]);
    let fonts = list(size, || random.between(first - 50, last + 50));
    let touched = list(size, || random.once_in(4).into());
    let weak = list(size, || random.once_in(4).into());
    let mut words = vec![131, edges as i32];
    words.extend(placed);
    words.extend(
        [&fonts, &fonts, &fonts, &touched, &weak]
            .into_iter()
            .flatten(),
    );
    words
}

/// So many numbers, behind their count.
fn list(count: usize, number: impl FnMut() -> i32) -> Vec<i32> {
    let mut words = vec![count as i32];
    words.extend(iter::repeat_with(number).take(count));
    words
}

/// Sets the last current of strong points out of range.
fn far_current(job: &mut [i32], size: usize) {
    let lists = 2 + EDGE_WORDS * job[1] as usize;
    job[lists + 3 * (1 + size) - 1] = 65_536;
}
