//! The chain of a glyph, step by step: for each axis linking, building, blue zones and stems in one call, edge points and weak points, and behind both the path. Or the same
//! with all that is behind building in one call, which has the guard and strong points too.

use crate::{
    cases::{self, Case, Damage, Role, ROUND},
    glyph::{Glyph, EDGES, POINTS, SEGMENTS},
    library, one_call, outlines, records,
    table::{self, Row},
};
use khsaemudol::{Dimension, Direction, Edge, Flags, Group, Segment, EDGE_WORDS, SEGMENT_WORDS};
use oracle::{generate::Random, given::metrics, job::Points, limits};

/// Units of a pixel.
const PIXEL: i32 = 64;
/// From design units to units at 16 pixels to the em, in 16.16.
const SCALE: i32 = 16 * PIXEL * 65_536 / 1_000;

/// An axis: its name, dimension and major direction, and how long a segment has to be for an edge.
struct Axis {
    name: &'static str,
    dimension: Dimension,
    major: Direction,
    length: i32,
}

/// The axes, in the order of the chain.
const AXES: [Axis; 2] = [
    Axis {
        name: "heights",
        dimension: Dimension::Vertical,
        major: Direction::Left,
        length: 0,
    },
    Axis {
        name: "widths",
        dimension: Dimension::Horizontal,
        major: Direction::Up,
        length: design(PIXEL),
    },
];

/// Units in design units, to the nearest.
const fn design(units: i32) -> i32 {
    (units * 65_536 + SCALE / 2) / SCALE
}

/// A step of a chain: what it is, its size and its job, and how that is damaged.
struct Step {
    kind: String,
    size: usize,
    job: Vec<i32>,
    damage: Damage,
}

/// A chain: the title of its table, the word of its group, and whether each axis is fitted in one call.
#[derive(Copy, Clone)]
pub struct Chain {
    title: &'static str,
    group: i32,
    in_one_call: bool,
}

/// The chains of both groups, by a call for each step.
const BY_STEPS: [Chain; 2] = [
    Chain {
        title: "default group",
        group: 0,
        in_one_call: false,
    },
    Chain {
        title: "CJK",
        group: 1,
        in_one_call: false,
    },
];

/// The same with each axis in one call.
const IN_ONE_CALL: [Chain; 2] = [
    Chain {
        title: "default group, each axis in one call",
        in_one_call: true,
        ..BY_STEPS[0]
    },
    Chain {
        title: "CJK, each axis in one call",
        in_one_call: true,
        ..BY_STEPS[1]
    },
];

/// Prints the steps of each group's chain, and their sum.
pub fn run() {
    println!("The chain of a glyph of {POINTS} points with {SEGMENTS} segments and {EDGES} edges on each axis: every step on what the step before left. Not timed is what the caller does on");
    println!("both sides: linking the default group's segments, and giving zones, to two of the heights. The Rust's path is the oracle's plain loop. Strong points go with the weak ones,");
    println!(
        "and the guard is not asked; no edge is left for remaining edges. `bench fit` has them."
    );
    BY_STEPS.iter().for_each(Chain::print);
}

/// The same with each axis in one call.
pub fn run_fit() {
    println!("The chain of the same glyph with each axis in one call behind building: zones, stems, remaining edges where some are left, the guard, edge points, strong points and weak points;");
    println!("points off the curve are weak. The Rust does the same in place, call by call, by the condition of its hint_edges; its guard and its path are the oracle's plain loops. Beside each");
    println!(
        "axis stand the library's calls in a row, on the same inputs. They are not in the sum."
    );
    IN_ONE_CALL.iter().for_each(Chain::print);
}

impl Chain {
    /// The chain of a title.
    pub fn named(title: &str) -> Option<Self> {
        let mut chains = BY_STEPS.into_iter().chain(IN_ONE_CALL);
        chains.find(|chain| chain.title == title)
    }

    /// Prints its steps, and their sum.
    fn print(&self) {
        let rows = table::table(self.title);
        Row::sum(&rows, self.title, "the chain".to_string(), POINTS).print();
    }

    /// Its cases: its steps, each on a round of glyphs, and beside an axis in one call the calls in a row.
    pub fn cases(&self) -> Vec<Case> {
        let glyph = |seed| self.steps(&Glyph::new(&mut Random::new(seed)));
        let glyphs: Vec<Vec<Step>> = (0..ROUND as u64).map(glyph).collect();
        let mut cases = Vec::new();
        for (ix, step) in glyphs[0].iter().enumerate() {
            let jobs: Vec<Vec<i32>> = glyphs.iter().map(|steps| steps[ix].job.clone()).collect();
            let in_one_call = jobs[0][0] == one_call::CALL;
            let case = |jobs| {
                let kind = step.kind.clone();
                Case::own(self.title, kind, step.size, jobs, step.damage)
            };
            let apart = in_one_call.then(|| case(jobs.clone()));
            cases.push(case(jobs));
            cases.extend(apart.map(|case| cases::beside(case, "the calls in a row", Role::Apart)));
        }
        cases
    }

    /// The steps of a glyph.
    fn steps(&self, glyph: &Glyph) -> Vec<Step> {
        let mut steps = Vec::new();
        let [ys, xs] = AXES.map(|axis| fit(glyph, &axis, self, &mut steps));
        steps.push(path(glyph, xs, ys));
        steps
    }
}

/// The path of a glyph whose points are fitted.
fn path(glyph: &Glyph, xs: Vec<i32>, ys: Vec<i32>) -> Step {
    let mut job = outlines::job(&Points {
        originals: xs,
        currents: ys,
        touches: glyph.on_curve.clone(),
        ends: glyph.ends.clone(),
    });
    job[0] = 15;
    Step {
        kind: "path".to_string(),
        size: POINTS,
        job,
        damage: cases::far_place,
    }
}

/// Adds the steps of an axis, and hands back where its points come to.
fn fit(glyph: &Glyph, axis: &Axis, chain: &Chain, steps: &mut Vec<Step>) -> Vec<i32> {
    let group = chain.group;
    let mut answered = |what: &str, size: usize, job: Vec<i32>, damage: Damage| {
        let answer = library::answer(&job);
        let kind = format!("{}, {what}", axis.name);
        steps.push(Step {
            kind,
            size,
            job,
            damage,
        });
        answer
    };
    let mut segments = glyph.segments[axis.dimension as usize].clone();
    if group == Group::Cjk as i32 {
        let job = linking(&segments, axis);
        let answer = answered("linking", SEGMENTS, job, cases::bad_score);
        segments = records::given(&answer, SEGMENTS);
    } else {
        link(&mut segments);
    }
    let job = building(&segments, axis, group);
    let answer = answered("building", SEGMENTS, job, cases::bad_score);
    segments = records::given(&answer, SEGMENTS);
    let mut edges = records::given(&answer[1 + SEGMENT_WORDS * SEGMENTS..], limits::EDGES);
    give_zones(&mut edges, axis);
    if chain.in_one_call {
        let job = whole(glyph, &segments, &edges, axis, group);
        let answer = answered("fitting", POINTS, job, one_call::far_current);
        // answer, the numbers, and a count in front of the edges and of the currents
        let currents = 1 + one_call::REFUSED.len() + 1 + EDGE_WORDS * EDGES + 1;
        return answer[currents..currents + POINTS].to_vec();
    }
    let job = fitting(&edges, axis, group);
    let answer = answered("blue zones and stems", EDGES, job, cases::far_edge);
    // answer, count and anchor stand in front of the edges
    edges = records::given(&answer[2..], EDGES);
    let mut points = untouched(glyph, axis);
    let job = moving(&segments, &edges, &points);
    let answer = answered("edge points", POINTS, job, cases::far_position);
    // answer and count stand in front of the currents, and a count in front of the touch marks
    points.currents.copy_from_slice(&answer[2..2 + POINTS]);
    let marks = &answer[3 + POINTS..];
    points.touches = marks.iter().map(|mark| *mark as u8).collect();
    let job = outlines::job(&points);
    answered("weak points", POINTS, job, cases::far_point)[2..].to_vec()
}

/// A job that links segments.
fn linking(segments: &[Segment], axis: &Axis) -> Vec<i32> {
    let mut words = vec![4];
    words.extend(records::words(SEGMENTS, segments));
    words.extend([axis.major as i32, 1_000, SCALE]);
    words
}

/// Links segments as the caller does those of the default group: the sides of a ring's two contours to each other, and so those of the dot.
fn link(segments: &mut [Segment]) {
    let dot = SEGMENTS - 2;
    for (ix, segment) in segments.iter_mut().enumerate() {
        let across = if ix < dot { ix ^ 2 } else { ix ^ 1 };
        segment.set_link(Some(across as u16));
    }
}

/// A job that builds edges of segments, with an edge distance of 16 and a width of half a pixel.
fn building(segments: &[Segment], axis: &Axis, group: i32) -> Vec<i32> {
    let (dim, major) = (axis.dimension as i32, axis.major as i32);
    let (length, width) = (axis.length, design(PIXEL / 2));
    let mut words = vec![105];
    words.extend(records::words(SEGMENTS, segments));
    words.extend([0, dim, major, group, 0, SCALE, 16, length, width]);
    words
}

/// Gives the lowest and the highest edge of the heights zones, at their nearest pixels.
fn give_zones(edges: &mut [Edge], axis: &Axis) {
    assert_eq!(edges.len(), EDGES, "other edges are built");
    if axis.dimension == Dimension::Vertical {
        for ix in [0, EDGES - 1] {
            let nearest = (edges[ix].pos() + PIXEL / 2) & -PIXEL;
            edges[ix].set_blue(Some(nearest));
        }
    }
}

/// A job of blue zones and stems, whose widths snap to one pixel and two.
fn fitting(edges: &[Edge], axis: &Axis, group: i32) -> Vec<i32> {
    let mut words = vec![122];
    words.extend(records::words(EDGES, edges));
    words.extend([axis.dimension as i32, group, 0, 0, 1, 2, PIXEL, 2 * PIXEL]);
    words
}

/// A job of an axis in one call, with the same widths, a least gap of half a pixel, and all points off the curve weak.
fn whole(glyph: &Glyph, segments: &[Segment], edges: &[Edge], axis: &Axis, group: i32) -> Vec<i32> {
    let fonts = glyph
        .places
        .iter()
        .map(|place| place[axis.dimension as usize]);
    let weak = glyph.on_curve.iter().map(|on| i32::from(*on == 0));
    let points = untouched(glyph, axis);
    let mut words = vec![one_call::CALL];
    words.extend(records::words(SEGMENTS, segments));
    words.extend(records::words(EDGES, edges));
    words.extend([9, axis.dimension as i32, group, 0, 1, 0, 1, 0, PIXEL / 2, 1]);
    words.extend([2, PIXEL, 2 * PIXEL]);
    let mut list = |numbers: Vec<i32>| {
        words.push(numbers.len() as i32);
        words.extend(numbers);
    };
    list(fonts.collect());
    list(points.originals);
    list(points.currents);
    list(points.touches.into_iter().map(i32::from).collect());
    list(weak.collect());
    list(points.ends.into_iter().map(i32::from).collect());
    words
}

/// The points of an axis, at their originals.
fn untouched(glyph: &Glyph, axis: &Axis) -> Points {
    let scaled = |place: &[i32; 2]| metrics::fixed_mul(place[axis.dimension as usize], SCALE);
    let originals: Vec<i32> = glyph.places.iter().map(scaled).collect();
    Points {
        currents: originals.clone(),
        touches: vec![0; POINTS],
        originals,
        ends: glyph.ends.clone(),
    }
}

/// A job of edge points, which snap to every edge, as the Rust's do: all are done.
fn moving(segments: &[Segment], edges: &[Edge], points: &Points) -> Vec<i32> {
    let done = |edge: &Edge| edge.flags().contains(Flags::DONE);
    assert!(edges.iter().all(done), "an edge is passed over");
    let mut words = vec![128];
    words.extend(records::words(SEGMENTS, segments));
    words.extend(records::words(EDGES, edges));
    words.extend([1, 0]);
    // the call is given all that weak points are but the originals
    words.extend(&outlines::job(points)[2 + POINTS..]);
    words
}
