//! One point dragged, timed beside the full alignment of the same buffer and beside the given Rust's.

use crate::{
    outlines::{self, Outlines},
    port,
    time::{self, Side},
};
use oracle::{
    calls,
    drag::dependants,
    generate::Random,
    job::{Job, Points},
    prepared,
};
use std::hint::black_box;

/// The kinds of outlines, their points and their contours.
const KINDS: [Outlines; 2] = [Outlines::Glyph, Outlines::Scattered(4)];
const SIZES: [usize; 4] = [64, 256, 1_024, 4_096];
const CONTOURS: [usize; 2] = [1, 16];

extern "C" {
    fn khs_drag_point(
        originals: *const i32,
        originals_len: u64,
        currents: *mut i32,
        currents_len: u64,
        touched: *const u8,
        touched_len: u64,
        ends: *const u16,
        ends_len: u64,
        point: u32,
    ) -> u8;
}

/// The library's side: a buffer that the full alignment left, with the current of a touched point then set, and its currents.
struct Dragged {
    points: Points,
    point: usize,
    currents: Vec<i32>,
}

impl Dragged {
    /// A pixel's drag of a touched point near the middle, if there is one of one that others follow.
    fn new(mut points: Points) -> Self {
        assert_eq!(calls::align_weak_points(&mut points), Ok(()));
        let count = points.touches.len();
        let from_middle = || (0..count).map(|ix| (ix + count / 2) % count);
        let is_touched = |ix: &usize| points.touches[*ix] != 0;
        let is_followed = |ix: &usize| is_touched(ix) && !dependants(&points, *ix).is_empty();
        let point = from_middle()
            .find(is_followed)
            .or_else(|| from_middle().find(is_touched))
            .expect("a point is touched");
        points.currents[point] += 64;
        Self {
            points,
            point,
            currents: Vec::new(),
        }
    }

    /// Drags the point; the answer.
    fn drag(&mut self) -> u8 {
        let Points {
            originals,
            touches,
            ends,
            ..
        } = &self.points;
        // SAFETY: each pointer and length is of one live slice, and the currents are lent to this call alone.
        unsafe {
            khs_drag_point(
                originals.as_ptr(),
                originals.len() as u64,
                self.currents.as_mut_ptr(),
                self.currents.len() as u64,
                touches.as_ptr(),
                touches.len() as u64,
                ends.as_ptr(),
                ends.len() as u64,
                self.point as u32,
            )
        }
    }
}

impl Side for Dragged {
    fn restore(&mut self) {
        self.currents.clone_from(&self.points.currents);
    }

    fn work(&mut self) {
        black_box(black_box(self).drag());
    }
}

/// Prints a line for each kind of outlines, each size and each number of contours.
pub fn run() {
    println!("Median times for an aligned outline of which one point is dragged: that alone, beside the full alignment and beside the Rust's, in nanoseconds");
    println!(
        "{:40} {:>6} {:>8} {:>7} {:>10} {:>10} {:>10} {:>9} {:>9}",
        "inputs", "points", "contours", "follow", "drag", "full", "Rust", "drag/full", "drag/Rust"
    );
    for kind in KINDS {
        for size in SIZES {
            for contours in CONTOURS.into_iter().filter(|contours| 4 * contours <= size) {
                let mut random = Random::new(size as u64);
                let mut drags: Vec<Dragged> = (0..4_096 / size)
                    .map(|_| outlines::in_contours(kind, size, contours, &mut random))
                    .map(Dragged::new)
                    .collect();
                let follow: usize = drags.iter_mut().map(compare).sum();
                let follow = follow as f64 / drags.len() as f64;
                let [drag, full, rust] = measure(&mut drags);
                println!(
                    "{:40} {size:6} {contours:8} {follow:7.1} {drag:10.1} {full:10.1} {rust:10.1} {:9.2} {:9.2}",
                    kind.title(),
                    drag / full,
                    drag / rust
                );
            }
        }
    }
}

/// The times of the three sides for an outline.
fn measure(drags: &mut Vec<Dragged>) -> [f64; 3] {
    let count = drags.len() as f64;
    let job = |drag: &Dragged| Job::Weak(drag.points.clone());
    let mut full: Vec<_> = drags
        .iter()
        .map(|drag| port::Prepared::new(job(drag), &[]))
        .collect();
    let mut rust: Vec<_> = drags
        .iter()
        .map(|drag| prepared::Prepared::new(job(drag)))
        .collect();
    time::medians([drags, &mut full, &mut rust]).map(|time| time / count)
}

/// Sees that a drag comes to what the Rust's full alignment does; how many points follow.
fn compare(drag: &mut Dragged) -> usize {
    let mut points = drag.points.clone();
    let follow = dependants(&points, drag.point).len();
    drag.restore();
    assert_eq!(drag.drag(), 0, "the port refused");
    assert_eq!(calls::align_weak_points(&mut points), Ok(()));
    assert_eq!(drag.currents, points.currents, "the results differ");
    follow
}
