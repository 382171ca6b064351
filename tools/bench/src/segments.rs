//! The segments that are timed, as words of a job.

use khsaemudol::{Segment, SEGMENT_WORDS};
use oracle::generate::Random;

/// How the segments of an axis lie.
#[derive(Copy, Clone)]
pub enum Kind {
    /// Anywhere, of any length.
    Scattered,
    /// In pairs, the two sides of a stroke.
    Strokes,
}

impl Kind {
    /// All kinds, in the order of the tables.
    pub const ALL: [Self; 2] = [Self::Scattered, Self::Strokes];

    /// What stands above its table.
    pub fn title(self) -> &'static str {
        match self {
            Self::Scattered => "scattered segments",
            Self::Strokes => "the two sides of strokes",
        }
    }
}

/// The words of so many segments, from their count on: up is the major direction, nothing is linked yet.
fn segments(kind: Kind, count: usize, random: &mut Random) -> Vec<i32> {
    let mut words = vec![count as i32];
    for i in 0..count {
        let [pos, start, length] = match (kind, i % 2) {
            (Kind::Strokes, 1) => {
                let side = &words[words.len() - SEGMENT_WORDS..];
                [side[2] + random.between(30, 60), side[4], side[5] - side[4]]
            }
            _ => [
                random.between(0, 1_000),
                random.between(0, 600),
                random.between(20, 400),
            ],
        };
        let dir = match kind {
            Kind::Scattered => random.between(3, 4),
            Kind::Strokes => 3 + (i % 2) as i32,
        };
        words.extend([
            0,
            dir,
            pos,
            0,
            start,
            start + length,
            0,
            32_000,
            0,
            -1,
            -1,
            0,
            0,
            -1,
            -1,
        ]);
    }
    words
}

/// The points of a contour that segments go around.
pub const CONTOUR: usize = 16;

/// Two segments of four points on each contour, one of them around the contour's end, on so many edges in turn.
pub fn around(contours: usize, edges: usize) -> Vec<Segment> {
    let segment = |ix: usize| {
        let start = ix / 2 * CONTOUR;
        let [first, last] = [[CONTOUR - 2, 1], [6, 9]][ix % 2].map(|at| (start + at) as u16);
        let segment = Segment::default().with_first(first).with_last(last);
        segment.with_edge(Some((ix % edges) as u16))
    };
    (0..2 * contours).map(segment).collect()
}

/// A job that links so many segments.
pub fn linking(kind: Kind, count: usize, random: &mut Random) -> Vec<i32> {
    let mut words = vec![4];
    words.extend(segments(kind, count, random));
    words.extend([3, 1_000, 65_536]);
    words
}
