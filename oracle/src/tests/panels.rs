//! Request #109: weak points to 65,535, the second writing of them, refusal 8, and demand 3 as it is since.

use super::job_of;
use crate::{
    calls::{self, align_weak_points},
    frames::read_frame,
    generate::{line, Profile, Random},
    job::{Catalogue, Dimension, Job, Points},
    limits::COORDINATE,
    ranges,
    refusals::{self, Answer, Refusal},
    weak,
};
use std::collections::BTreeMap;

/// One contour of points given as (original, current, touched).
fn contour(points: &[(i32, i32, bool)]) -> Points {
    Points {
        originals: points.iter().map(|p| p.0).collect(),
        currents: points.iter().map(|p| p.1).collect(),
        touches: points.iter().map(|p| p.2.into()).collect(),
        ends: vec![points.len() as u16 - 1],
    }
}

/// The answer's number and the currents behind it.
fn aligned(mut points: Points) -> (i32, Vec<i32>) {
    let answer = align_weak_points(&mut points);
    (number(answer), points.currents)
}

/// The number of an answer.
fn number(answer: Answer<()>) -> i32 {
    answer.map_or_else(|refusal| refusal.0, |()| 0)
}

/// The answer where references 0 and this far behind are moved apart by so much, and a point lies one behind the first.
fn steep(span: i32, rise: i32) -> i32 {
    let from = if rise < 0 { 65_535 } else { -65_535 };
    let points = [(0, from, true), (1, 7, false), (span, from + rise, true)];
    let around = [points[1], points[2], points[0]];
    let answers = [points, around].map(|points| {
        let points = contour(&points);
        let (answer, currents) = aligned(points.clone());
        assert!(answer == 0 || currents == points.currents);
        answer
    });
    assert_eq!(answers[0], answers[1]);
    answers[0]
}

#[test]
fn too_steep_from_exactly_where_a_quotient_passes_32_bits() {
    for sign in [1, -1] {
        for (span, rise, answer) in [
            (2, 65_535, 0),
            (2, 65_536, 8),
            (2, 131_070, 8),
            (3, 98_303, 0),
            (3, 98_304, 8),
            (3, 131_070, 8),
            (4, 131_070, 0),
        ] {
            assert_eq!(steep(span, sign * rise), answer, "{span}, {rise}");
        }
    }
    // a quotient of -2,147,483,648
    let lowest = [(0, 65_535, true), (1, 0, false), (2, -1, true)];
    assert_eq!(aligned(contour(&lowest)), (8, vec![65_535, 0, -1]));
}

#[test]
fn a_steep_stretch_with_nothing_strictly_between_is_accepted() {
    let points = [(0, -65_535, true), (0, 3, false), (1, 65_535, true)];
    assert_eq!(
        aligned(contour(&points)),
        (0, vec![-65_535, -65_535, 65_535])
    );
    let points = [
        (0, -65_535, true),
        (-1, 3, false),
        (2, 4, false),
        (2, 65_535, true),
        (0, 5, false),
        (3, 6, false),
    ];
    let moved = vec![-65_535, -65_536, 65_535, 65_535, -65_535, 65_536];
    assert_eq!(aligned(contour(&points)), (0, moved));
    // all are touched, or one is
    let points = [(0, -65_535, true), (1, 3, true), (2, 65_535, true)];
    assert_eq!(aligned(contour(&points)).0, 0);
    let points = [(0, -65_535, true), (1, 3, false), (2, 65_535, false)];
    assert_eq!(
        aligned(contour(&points)),
        (0, vec![-65_535, -65_534, -65_533])
    );
}

/// Two contours: one of a moved point and one that follows, and one that is too steep.
fn second_is_steep() -> Points {
    Points {
        originals: vec![0, 10, 0, 1, 2],
        currents: vec![5, 99, 65_535, 7, -65_535],
        touches: vec![1, 0, 1, 0, 1],
        ends: vec![1, 4],
    }
}

#[test]
fn eight_is_the_last_refusal_and_writes_nothing() {
    let mut points = second_is_steep();
    assert_eq!(
        aligned(points.clone()),
        (8, vec![5, 99, 65_535, 7, -65_535])
    );
    points.originals[1] = 65_536;
    assert_eq!(aligned(points.clone()).0, 4);
    points.ends = vec![4, 1];
    assert_eq!(aligned(points.clone()).0, 3);
    points.touches.pop();
    assert_eq!(aligned(points).0, 1);
}

#[test]
fn eight_is_each_outlines_own() {
    let (one, two) = (contour(&[(0, 5, true), (10, 99, false)]), second_is_steep());
    let mut catalogue = Catalogue {
        shared: Points::none(),
        point_counts: vec![2, 5, 2],
        contour_counts: vec![1, 2, 1],
        answers: vec![9, 9, 9],
    };
    for outline in [&one, &two, &one] {
        let shared = &mut catalogue.shared;
        shared.originals.extend(&outline.originals);
        shared.currents.extend(&outline.currents);
        shared.touches.extend(&outline.touches);
        shared.ends.extend(&outline.ends);
    }
    assert_eq!(calls::align_catalogue(&mut catalogue), Ok(()));
    assert_eq!(catalogue.answers, [0, 8, 0]);
    let currents = [5, 15, 5, 99, 65_535, 7, -65_535, 5, 15];
    assert_eq!(catalogue.shared.currents, currents);
}

#[test]
fn results_reach_196605() {
    for sign in [1, -1] {
        let far = 65_535 * sign;
        let points = [(-far, far, true), (far, 0, false)];
        assert_eq!(aligned(contour(&points)), (0, vec![far, 3 * far]));
        let mut fed_back = contour(&points);
        fed_back.currents[1] = 3 * far;
        assert_eq!(aligned(fed_back).0, 4);
    }
}

#[test]
fn a_point_may_pass_the_second_reference_by_one() {
    // strictly between it is one beyond, and at the second original it is not
    let passing = |span: i32, rise: i32| {
        let (low, high) = (-65_535, span - 65_535);
        let points = [
            (low, 0, true),
            (high - 1, 7, false),
            (high, 7, false),
            (high, rise, true),
        ];
        let (answer, currents) = aligned(contour(&points));
        assert_eq!((answer, currents[2]), (0, rise));
        currents[1]
    };
    assert_eq!(passing(131_070, 1), 2);
    assert_eq!(passing(131_070, -1), -2);
    // the shortest span with a point outside
    assert_eq!(passing(65_793, 128), 129);
    let (mut span, mut found) = (65_536, Vec::new());
    while found.is_empty() {
        span += 1;
        let rises = (-300..300).filter(|rise| passing(span, *rise).abs() > rise.abs());
        found = rises.collect();
    }
    assert_eq!((span, found), (65_793, vec![-128, 128]));
}

/// Made-up outlines of call 3.
fn made_up(seed: u64, count: usize) -> impl Iterator<Item = Points> {
    let mut random = Random::new(seed);
    [Profile::Small, Profile::Mixed, Profile::Limits]
        .into_iter()
        .flat_map(move |profile| std::iter::repeat_n(profile, count))
        .filter_map(
            move |profile| match job_of(&line(3, profile, &mut random)) {
                Some(Job::Weak(points)) => Some(points),
                _ => None,
            },
        )
}

#[test]
fn in_the_old_range_the_second_writing_answers_as_the_given_rust() {
    let mut compared = 0;
    for points in made_up(109, 12_000) {
        if refusals::outline(&points).is_ok() && ranges::is_old(&points) {
            assert!(!weak::is_too_steep(&points));
            for dim in [Dimension::Horizontal, Dimension::Vertical] {
                assert_eq!(weak::aligned(&points), calls::aligned(&points, dim));
            }
            compared += 1;
        }
    }
    assert!(compared > 15_000, "{compared}");
}

/// A point between touched ones: its index, and those of its references.
struct Between {
    ix: usize,
    first: usize,
    second: usize,
    contour: usize,
}

/// The untouched points of contours with two touched ones or more, whose references are looked for step by step around the contour.
fn between(points: &Points) -> Vec<Between> {
    let is_touched = |ix: &usize| points.touches[*ix] != 0;
    let mut found = Vec::new();
    let mut start = 0;
    for (contour, end) in points.ends.iter().map(|end| usize::from(*end)).enumerate() {
        let ring = start..=end;
        let count = ring.clone().filter(is_touched).count();
        for ix in ring.filter(|ix| count > 1 && !is_touched(ix)) {
            let forward = |ix: usize| if ix == end { start } else { ix + 1 };
            let back = |ix: usize| if ix == start { end } else { ix - 1 };
            let (mut before, mut behind) = (back(ix), forward(ix));
            while !is_touched(&before) {
                before = back(before);
            }
            while !is_touched(&behind) {
                behind = forward(behind);
            }
            let swapped = points.originals[before] > points.originals[behind];
            let (first, second) = if swapped {
                (behind, before)
            } else {
                (before, behind)
            };
            found.push(Between {
                ix,
                first,
                second,
                contour,
            });
        }
        start = end + 1;
    }
    found
}

/// What demand 3 speaks of, for one point: originals of the point and both references, currents of these, and the result.
struct Spoken {
    v: i64,
    v1: i64,
    u1: i64,
    v2: i64,
    u2: i64,
    z: i64,
}

impl Spoken {
    fn of(points: &Points, results: &[i32], at: &Between) -> Self {
        let original = |ix: usize| i64::from(points.originals[ix]);
        let current = |ix: usize| i64::from(points.currents[ix]);
        Self {
            v: original(at.ix),
            v1: original(at.first),
            u1: current(at.first),
            v2: original(at.second),
            u2: current(at.second),
            z: results[at.ix].into(),
        }
    }

    /// Whether the point is strictly between.
    fn is_between(&self) -> bool {
        self.v1 < self.v && self.v < self.v2
    }

    /// How far the result is outside of the references.
    fn outside(&self) -> i64 {
        let (low, high) = (self.u1.min(self.u2), self.u1.max(self.u2));
        (low - self.z).max(self.z - high).max(0)
    }

    /// Holds a point that is strictly between to the first clause.
    fn check(&self) {
        let (span, rise) = (self.v2 - self.v1, self.u2 - self.u1);
        let error = (4 * span * (self.z - self.u1) - 4 * (self.v - self.v1) * rise).abs();
        assert!(error < 6 * span);
        assert!(span > 32_768 || error < 3 * span);
        assert!(self.outside() <= 1);
        assert!(span > 65_536 || self.outside() == 0);
    }

    /// Holds two points between the same references to the order clause; whether it is the exception that holds.
    fn check_order(&self, other: &Self) -> bool {
        if self.v == other.v {
            assert_eq!(self.z, other.z);
            return false;
        }
        if self.z <= other.z {
            return false;
        }
        assert!(self.v2 - self.v1 > 65_536 && self.is_between() && other.v == self.v2);
        assert_eq!(self.z, other.z + 1);
        true
    }
}

#[test]
fn demand_3_as_it_is_since_request_109() {
    let (mut strictly, mut outside, mut exceptions, mut pairs) = (0, 0, 0, 0);
    for points in made_up(3, 30_000) {
        let (answer, results) = aligned(points.clone());
        if answer != 0 {
            continue;
        }
        let mut stretches: BTreeMap<(usize, usize), Vec<Spoken>> = BTreeMap::new();
        for at in between(&points) {
            let spoken = Spoken::of(&points, &results, &at);
            if spoken.is_between() {
                spoken.check();
                strictly += 1;
                outside += i64::from(spoken.outside() > 0);
            }
            let key = (at.first.min(at.second), at.first.max(at.second));
            stretches.entry(key).or_default().push(spoken);
        }
        for stretch in stretches.values() {
            let ordered = |one: &Spoken| one.v1 < one.v2 && one.u1 <= one.u2;
            for one in stretch.iter().filter(|one| ordered(one)) {
                for other in stretch.iter().filter(|other| one.v <= other.v) {
                    exceptions += i64::from(one.check_order(other));
                    pairs += 1;
                }
            }
        }
    }
    let counts = [strictly, outside, pairs, exceptions];
    let least = [30_000, 300, 100_000, 100];
    let enough = counts
        .iter()
        .zip(least)
        .all(|(count, least)| *count > least);
    assert!(enough, "{counts:?}");
}

#[test]
fn a_frame_is_never_refused_by_4_or_8() {
    let mut random = Random::new(103);
    let mut frames = 0;
    for profile in [Profile::Small, Profile::Mixed, Profile::Limits] {
        for _ in 0..4_000 {
            let Some(Job::ReadFrame(line)) = job_of(&line(26, profile, &mut random)) else {
                continue;
            };
            if let Ok(points) = read_frame(&line) {
                let answer = refusals::weak(&points);
                assert!(matches!(answer, Ok(()) | Err(Refusal(3))));
                frames += 1;
            }
        }
    }
    assert!(frames > 5_000, "{frames}");
    // as steep as a frame gets
    let farthest = contour(&[(0, -32_768, true), (1, 0, false), (2, 32_767, true)]);
    assert_eq!(aligned(farthest).0, 0);
}

/// A wrong call: what it answers and leaves.
type Wrong = fn(Points) -> (i32, Vec<i32>);

/// Whether a point's stretch is too steep by the rounded quotient, whatever the point is.
fn is_steep(points: &Points, at: &Between) -> bool {
    let spoken = Spoken::of(points, &points.currents, at);
    let (rise, span) = (spoken.u2 - spoken.u1, spoken.v2 - spoken.v1);
    span > 0 && (2 * (rise * 65_536).abs() + span) / (2 * span) > 2_147_483_647
}

/// The call where 8 is given by another rule for points between touched ones.
fn refused_where(points: Points, rule: impl Fn(&Points, &Between) -> bool) -> (i32, Vec<i32>) {
    if let Err(Refusal(number)) = refusals::outline(&points) {
        return (number, points.currents);
    }
    if between(&points).iter().any(|at| rule(&points, at)) {
        return (8, points.currents);
    }
    (0, weak::aligned(&points))
}

/// Whether a point lies strictly between, or one side of that is forgotten.
fn lies(points: &Points, at: &Between, or_first: bool, or_second: bool) -> bool {
    let original = |ix: usize| points.originals[ix];
    let (v, v1, v2) = (original(at.ix), original(at.first), original(at.second));
    (v1 < v || or_first && v == v1) && (v < v2 || or_second && v == v2)
}

/// What a careless person gets wrong about 8 and about results.
const WRONG: [(&str, Wrong); 12] = [
    ("8 in front of 4", |points| {
        let (answer, left) = aligned(points.clone());
        let ends_hold = answer != 1 && answer != 3;
        match ends_hold && weak::is_too_steep(&points) {
            true => (8, left),
            false => (answer, left),
        }
    }),
    ("8 never given", |points| {
        refused_where(points, |_, _| false)
    }),
    ("8 where the references alone are steep", |points| {
        refused_where(points, is_steep)
    }),
    ("8 for the first contour alone", |points| {
        refused_where(points, |points, at| {
            at.contour == 0 && is_steep(points, at) && lies(points, at, false, false)
        })
    }),
    ("8 for a point at the second reference", |points| {
        refused_where(points, |points, at| {
            is_steep(points, at) && lies(points, at, false, true)
        })
    }),
    ("8 for a point at the first reference", |points| {
        refused_where(points, |points, at| {
            is_steep(points, at) && lies(points, at, true, false)
        })
    }),
    ("8 for rising stretches alone", |points| {
        refused_where(points, |points, at| {
            let rises = points.currents[at.first] < points.currents[at.second];
            rises && is_steep(points, at) && lies(points, at, false, false)
        })
    }),
    ("8 at a span of 2 alone", |points| {
        refused_where(points, |points, at| {
            let span = points.originals[at.second] - points.originals[at.first];
            span == 2 && is_steep(points, at) && lies(points, at, false, false)
        })
    }),
    ("8 from 65,535 at a span of 2", |points| {
        refused_where(points, |points, at| {
            let span = points.originals[at.second] - points.originals[at.first];
            let rise = points.currents[at.second] - points.currents[at.first];
            let steep = is_steep(points, at) || span == 2 && rise.abs() == 65_535;
            steep && lies(points, at, false, false)
        })
    }),
    ("8 found while writing", |points| {
        let (answer, left) = aligned(points.clone());
        if answer != 8 {
            return (answer, left);
        }
        // contours in front of the steep one are written
        let steep = |at: &&Between| is_steep(&points, at) && lies(&points, at, false, false);
        let contour = between(&points).iter().find(steep).map(|at| at.contour);
        let mut front = points.clone();
        front.ends.truncate(contour.unwrap_or(0));
        (8, weak::aligned(&front))
    }),
    ("results clamped into the references", |points| {
        let (answer, mut left) = aligned(points.clone());
        for at in between(&points).iter().filter(|_| answer == 0) {
            let ends = [at.first, at.second].map(|ix| points.currents[ix]);
            if lies(&points, at, false, false) {
                left[at.ix] = left[at.ix].clamp(ends[0].min(ends[1]), ends[0].max(ends[1]));
            }
        }
        (answer, left)
    }),
    ("results clamped into the range", |points| {
        let (answer, mut left) = aligned(points);
        for current in left.iter_mut().filter(|_| answer == 0) {
            *current = (*current).clamp(*COORDINATE.start(), *COORDINATE.end());
        }
        (answer, left)
    }),
];

#[test]
fn made_up_jobs_tell_every_slip_of_larger_panels() {
    let right: Wrong = |points| {
        refused_where(points, |points, at| {
            is_steep(points, at) && lies(points, at, false, false)
        })
    };
    let told =
        |wrong: Wrong| made_up(8, 6_000).any(|points| wrong(points.clone()) != aligned(points));
    assert!(!told(right));
    for (slip, wrong) in WRONG {
        assert!(told(wrong), "{slip}");
    }
}
