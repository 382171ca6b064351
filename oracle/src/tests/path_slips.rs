//! A second walk, point by point as the request's sentences go, and the slips that the made-up jobs tell from it.

use super::job_of;
use crate::{
    answer::answer,
    generate::{line, patterns, Profile, Random},
    job::{Job, Walk},
    limits::{COORDINATE, RESULT},
    path::{
        Place,
        Step::{self, Close, Curve, Line, Move},
    },
};

/// What a careless person gets wrong, or nothing.
#[derive(Copy, Clone, PartialEq, Debug)]
enum Slip {
    Nothing,
    StartsAtLastPoint,
    WholeUnits,
    LineBehindCurve,
    LineBack,
    StopsAtSeam,
    SeamGoesToStart,
    NoTrailingCurve,
    LoneCurveLeftOut,
    AllOffStartsAtFirst,
    AllOffStartsBehindFirst,
    LinesOfNoLengthLeftOut,
    MarkIsOne,
    RestIsContour,
    FirstContourOnly,
    EndBeforeControl,
    NegativeZero,
    NarrowRange,
    YNotTested,
    RestNotTested,
    FourBeforeThree,
    FinishedBeforeRefused,
    NextBeyondEnd,
    LastStepAgain,
}

/// Every slip.
const SLIPS: [Slip; 23] = [
    Slip::StartsAtLastPoint,
    Slip::WholeUnits,
    Slip::LineBehindCurve,
    Slip::LineBack,
    Slip::StopsAtSeam,
    Slip::SeamGoesToStart,
    Slip::NoTrailingCurve,
    Slip::LoneCurveLeftOut,
    Slip::AllOffStartsAtFirst,
    Slip::AllOffStartsBehindFirst,
    Slip::LinesOfNoLengthLeftOut,
    Slip::MarkIsOne,
    Slip::RestIsContour,
    Slip::FirstContourOnly,
    Slip::EndBeforeControl,
    Slip::NegativeZero,
    Slip::NarrowRange,
    Slip::YNotTested,
    Slip::RestNotTested,
    Slip::FourBeforeThree,
    Slip::FinishedBeforeRefused,
    Slip::NextBeyondEnd,
    Slip::LastStepAgain,
];

/// A point in units.
#[derive(Copy, Clone)]
struct Point {
    x: i32,
    y: i32,
    on: bool,
}

/// A coordinate in pixels, from units and what a pixel has of them.
fn pixels(units: i32, pixel: i16, slip: Slip) -> f32 {
    let pixel = f32::from(pixel);
    if slip == Slip::NegativeZero {
        return -(units.wrapping_neg() as f32 / pixel);
    }
    units as f32 / pixel
}

/// Where a point is.
fn at(point: Point, slip: Slip) -> Place {
    Place {
        x: pixels(point.x, 64, slip),
        y: pixels(point.y, 64, slip),
    }
}

/// Where the point halfway between two is.
fn halfway(a: Point, b: Point, slip: Slip) -> Place {
    // A slip in a test lets any number through.
    let (x, y) = (a.x.wrapping_add(b.x), a.y.wrapping_add(b.y));
    if slip == Slip::WholeUnits {
        let on = true;
        let (x, y) = (x / 2, y / 2);
        return at(Point { x, y, on }, slip);
    }
    Place {
        x: pixels(x, 128, slip),
        y: pixels(y, 128, slip),
    }
}

/// The steps of a contour.
fn contour(points: &[Point], slip: Slip) -> Vec<Step> {
    let count = points.len();
    if slip == Slip::LoneCurveLeftOut && count == 1 {
        return vec![Move(at(points[0], slip)), Close];
    }
    let (start, order) = start_and_walk(points, slip);
    let mut steps = vec![Move(start)];
    let mut behind_on = true;
    for (ix, (number, point)) in order.iter().enumerate() {
        let next = order.get(ix + 1).map(|(_, next)| *next);
        let to_start = slip == Slip::SeamGoesToStart && *number == count - 1;
        let place = at(*point, slip);
        match next.filter(|_| !to_start) {
            _ if point.on => {
                let same = steps.last().and_then(|step| step.places().pop()) == Some(place);
                let left_out = slip == Slip::LinesOfNoLengthLeftOut && same;
                if (behind_on || slip == Slip::LineBehindCurve) && !left_out {
                    steps.push(Line(place));
                }
            }
            None if slip == Slip::NoTrailingCurve => {}
            None => steps.push(curve(place, start, slip)),
            Some(next) if next.on => steps.push(curve(place, at(next, slip), slip)),
            Some(next) => steps.push(curve(place, halfway(*point, next, slip), slip)),
        }
        behind_on = point.on;
    }
    if slip == Slip::LineBack && behind_on {
        steps.push(Line(start));
    }
    steps.push(Close);
    steps
}

/// A curve.
fn curve(control: Place, end: Place, slip: Slip) -> Step {
    if slip == Slip::EndBeforeControl {
        Curve(end, control)
    } else {
        Curve(control, end)
    }
}

/// Where a contour starts, and the points behind with their numbers in it.
fn start_and_walk(points: &[Point], slip: Slip) -> (Place, Vec<(usize, Point)>) {
    let count = points.len();
    let numbered = |ix: usize| (ix % count, points[ix % count]);
    let last = points[count - 1];
    let first_on = points.iter().position(|point| point.on);
    match first_on {
        Some(first) if slip == Slip::StartsAtLastPoint && first > 0 && last.on => {
            (at(last, slip), (0..count - 1).map(numbered).collect())
        }
        Some(first) if slip == Slip::StopsAtSeam => (
            at(points[first], slip),
            (first + 1..count).map(numbered).collect(),
        ),
        Some(first) => {
            let order = first + 1..first + count;
            (at(points[first], slip), order.map(numbered).collect())
        }
        None if slip == Slip::AllOffStartsAtFirst => {
            (at(points[0], slip), (0..count).map(numbered).collect())
        }
        None if slip == Slip::AllOffStartsBehindFirst => {
            let order = (1..=count).map(numbered).collect();
            (halfway(points[0], points[1 % count], slip), order)
        }
        None => {
            let order = (0..count).map(numbered).collect();
            (halfway(last, points[0], slip), order)
        }
    }
}

/// The steps of an outline.
fn steps(walk: &Walk, slip: Slip) -> Vec<Step> {
    let mut ends: Vec<usize> = walk.ends.iter().map(|end| usize::from(*end)).collect();
    let points: Vec<Point> = (0..walk.xs.len())
        .map(|ix| Point {
            x: walk.xs[ix],
            y: walk.ys[ix],
            on: match slip {
                Slip::MarkIsOne => walk.marks[ix] == 1,
                _ => walk.marks[ix] != 0,
            },
        })
        .collect();
    if slip == Slip::FirstContourOnly {
        ends.truncate(1);
    }
    let rest = ends.last().map_or(0, |end| end + 1);
    if slip == Slip::RestIsContour && rest < points.len() {
        ends.push(points.len() - 1);
    }
    let mut first = 0;
    let mut made = Vec::new();
    for end in ends {
        made.extend(contour(&points[first..=end], slip));
        first = end + 1;
    }
    made
}

/// The refusal of an outline, or 0.
fn refusal(walk: &Walk, slip: Slip) -> i32 {
    let count = walk.xs.len();
    let ends = &walk.ends;
    let rising = ends.windows(2).all(|pair| pair[0] < pair[1]);
    let below = ends.iter().all(|end| usize::from(*end) < count);
    let range = if slip == Slip::NarrowRange {
        COORDINATE
    } else {
        RESULT
    };
    let tested = match slip {
        Slip::RestNotTested => ends.last().map_or(0, |end| usize::from(*end) + 1),
        _ => count,
    };
    let leaves = |list: &[i32]| list.iter().take(tested).any(|c| !range.contains(c));
    let far = leaves(&walk.xs) || slip != Slip::YNotTested && leaves(&walk.ys);
    if count > 4_096 || walk.ys.len() != count || walk.marks.len() != count {
        1
    } else if slip == Slip::FourBeforeThree && far {
        4
    } else if !rising || !below {
        3
    } else if far {
        4
    } else {
        0
    }
}

/// A step's words.
fn words(step: &Step) -> Vec<i32> {
    let floats = step
        .places()
        .into_iter()
        .flat_map(|place| [place.x, place.y]);
    let bits = floats.map(|float| float.to_bits() as i32);
    [step.kind()].into_iter().chain(bits).collect()
}

/// The words of the answer to a job of call 15.
fn whole(walk: &Walk, slip: Slip) -> Vec<i32> {
    match refusal(walk, slip) {
        0 => {
            let steps = steps(walk, slip);
            let mut answer = vec![0, steps.len() as i32];
            answer.extend(steps.iter().flat_map(words));
            answer
        }
        number => vec![number, 0],
    }
}

/// The words of the answer to a job of call 16.
fn single(walk: &Walk, cursor: u32, slip: Slip) -> Vec<i32> {
    let most = (walk.xs.len() + 2 * walk.ends.len()) as u32;
    let mut number = refusal(walk, slip);
    let mut step = None;
    if slip == Slip::FinishedBeforeRefused && cursor >= most {
        number = 0;
    } else if number == 0 {
        let steps = steps(walk, slip);
        let at_end = slip == Slip::LastStepAgain && cursor as usize == steps.len();
        step = steps
            .get(cursor as usize - usize::from(at_end && cursor > 0))
            .copied();
    }
    let next = slip == Slip::NextBeyondEnd && number == 0 && cursor < i32::MAX as u32;
    let next = cursor + u32::from(step.is_some() || next);
    let mut answer = vec![number];
    answer.extend(step.map_or(vec![0], |step| words(&step)));
    answer.resize(6, 0);
    answer.push(next as i32);
    answer
}

/// Whether the oracle's answer is that of the second walk with a slip.
fn agrees(job: &Job, slip: Slip) -> bool {
    let expected = match job {
        Job::Path(walk) => whole(walk, slip),
        Job::PathStep(walk, cursor) => single(walk, *cursor, slip),
        _ => return true,
    };
    answer(job.clone()).values == expected
}

/// Made-up jobs of a call.
fn made(call: usize, profile: Profile, count: usize) -> Vec<Job> {
    let mut random = Random::new(101);
    let lines = (0..count).map(|_| line(call, profile, &mut random));
    lines.filter_map(|line| job_of(&line)).collect()
}

/// The profiles that make good jobs.
const GOOD: [Profile; 3] = [Profile::Small, Profile::Mixed, Profile::Limits];

#[test]
fn two_walks_agree_on_every_pattern() {
    let mut jobs = 0;
    for step in [false, true] {
        let agreed = patterns::jobs(step, &mut |job| {
            jobs += 1;
            let agree = agrees(job, Slip::Nothing);
            agree.then_some(()).ok_or_else(|| format!("{job:?}"))
        });
        assert_eq!(agreed, Ok(()));
    }
    assert_eq!(jobs, 16_380 + 245_736);
}

#[test]
fn two_walks_agree_on_made_up_jobs() {
    for call in [15, 16] {
        for profile in GOOD.into_iter().chain([Profile::Damaged]) {
            for job in made(call, profile, 3_000) {
                assert!(agrees(&job, Slip::Nothing), "{job:?}");
            }
        }
    }
}

#[test]
fn made_up_jobs_tell_every_slip() {
    for call in [15, 16] {
        let jobs = GOOD.map(|profile| made(call, profile, 3_000)).concat();
        for slip in SLIPS {
            let of_cursors = matches!(
                slip,
                Slip::FinishedBeforeRefused | Slip::NextBeyondEnd | Slip::LastStepAgain
            );
            let told = jobs.iter().any(|job| !agrees(job, slip));
            assert_eq!(told, call == 16 || !of_cursors, "{slip:?}, call {call}");
        }
    }
}
