//! Slips of dragging that the made-up jobs tell.

use super::job_of;
use crate::{
    calls,
    drag::{dependants, drag_point},
    generate::{line, Profile, Random},
    job::{Job, Points},
    limits::COORDINATE,
    references::contour_of,
    refusals::{Answer, Refusal},
};

/// What a careless person gets wrong, or nothing.
#[derive(Copy, Clone, PartialEq, Debug)]
enum Slip {
    Nothing,
    StretchBehindAlone,
    StretchBeforeAlone,
    StopsAtTheSeam,
    NextPointsAlone,
    WholeContour,
    WholeOutline,
    OwnCurrent,
    BackOnOriginals,
    LoneMovesNothing,
    LoneMovesOutline,
    UntouchedAccepted,
    MissingAccepted,
    LastPointMissing,
    NoContourRefused,
    MarkIsOne,
    PointBehindFour,
    PointBeforeLengths,
    OwnContourTested,
    OriginalsUntested,
}

use Slip::*;

/// Every slip.
const SLIPS: [Slip; 19] = [
    StretchBehindAlone,
    StretchBeforeAlone,
    StopsAtTheSeam,
    NextPointsAlone,
    WholeContour,
    WholeOutline,
    OwnCurrent,
    BackOnOriginals,
    LoneMovesNothing,
    LoneMovesOutline,
    UntouchedAccepted,
    MissingAccepted,
    LastPointMissing,
    NoContourRefused,
    MarkIsOne,
    PointBehindFour,
    PointBeforeLengths,
    OwnContourTested,
    OriginalsUntested,
];

/// The points that are fitted again.
fn follow(points: &Points, point: usize, slip: Slip) -> Vec<usize> {
    let Some(contour) = contour_of(&points.ends, point) else {
        return if slip == WholeOutline {
            (0..points.touches.len()).collect()
        } else {
            Vec::new()
        };
    };
    let count = contour.end() - contour.start() + 1;
    // How many steps a point is behind the dragged one, around the contour.
    let steps = |ix: usize| (ix + count - point) % count;
    let touched: Vec<usize> = contour
        .clone()
        .filter(|ix| points.touches[*ix] != 0)
        .collect();
    let next = touched
        .iter()
        .map(|ix| steps(*ix))
        .filter(|steps| *steps > 0)
        .min()
        .unwrap_or(count);
    let last = touched.iter().map(|ix| steps(*ix)).max().unwrap_or(0);
    let lone = touched.len() == 1;
    let depends = |ix: &usize| match slip {
        StretchBehindAlone => steps(*ix) < next,
        StretchBeforeAlone => steps(*ix) > last,
        StopsAtTheSeam => (steps(*ix) < next) == (*ix > point) || lone,
        NextPointsAlone => [1, count - 1].contains(&steps(*ix)),
        LoneMovesNothing => !lone,
        _ => true,
    };
    match slip {
        WholeContour => contour.collect(),
        WholeOutline => (0..points.touches.len()).collect(),
        LoneMovesOutline if lone => (0..points.touches.len()).collect(),
        _ => dependants(points, point)
            .into_iter()
            .filter(depends)
            .collect(),
    }
}

/// The number of an answer.
fn number(answer: Answer<()>) -> i32 {
    answer.map_or_else(|Refusal(number)| number, |()| 0)
}

/// What the full alignment answers, with a slip, and what it leaves.
fn aligned(points: &Points, point: usize, slip: Slip) -> (i32, Vec<i32>) {
    let mut given = points.clone();
    let mend = |list: &mut [i32], ix: usize| {
        if !COORDINATE.contains(&list[ix]) {
            list[ix] = 0;
        }
    };
    let contour = contour_of(&points.ends, point);
    for ix in 0..points.originals.len().min(points.currents.len()) {
        let own = contour
            .as_ref()
            .is_some_and(|contour| contour.contains(&ix));
        if slip == OwnContourTested && !own {
            mend(&mut given.originals, ix);
            mend(&mut given.currents, ix);
        }
        if slip == OriginalsUntested {
            mend(&mut given.originals, ix);
        }
    }
    let answer = number(calls::align_weak_points(&mut given));
    (answer, given.currents)
}

/// The call with a slip: its answer and what it leaves.
fn drag(mut points: Points, point: usize, slip: Slip) -> (i32, Vec<i32>) {
    let count = points.touches.len();
    let mark = points.touches.get(point).copied();
    let there = match slip {
        UntouchedAccepted => mark.is_some(),
        MissingAccepted => mark.is_none_or(|mark| mark != 0),
        LastPointMissing => mark.is_some_and(|mark| mark != 0) && point + 1 < count,
        NoContourRefused => {
            mark.is_some_and(|mark| mark != 0) && contour_of(&points.ends, point).is_some()
        }
        MarkIsOne => mark == Some(1),
        _ => mark.is_some_and(|mark| mark != 0),
    };
    let (answer, full) = aligned(&points, point, slip);
    let before = match answer {
        1 if slip == PointBeforeLengths && !there => 3,
        4 if slip == PointBehindFour => 4,
        1 | 3 => answer,
        _ if !there => 3,
        _ => answer,
    };
    if before != 0 {
        return (before, points.currents);
    }
    let lone_back =
        slip == BackOnOriginals && points.currents.get(point) == points.originals.get(point);
    for ix in follow(&points, point, slip) {
        let alone = lone_back
            && contour_of(&points.ends, point).is_some_and(|mut contour| {
                contour.all(|ix| ix == point || points.touches[ix] == 0)
            });
        points.currents[ix] = if alone {
            points.originals[ix]
        } else {
            full[ix]
        };
    }
    if slip == OwnCurrent && point < count {
        points.currents[point] = points.originals[point];
    }
    (0, points.currents)
}

/// Whether a made-up job tells the slip.
fn told(slip: Slip) -> bool {
    let mut random = Random::new(111);
    [Profile::Small, Profile::Mixed, Profile::Limits]
        .into_iter()
        .flat_map(|profile| std::iter::repeat_n(profile, 2_000))
        .filter_map(|profile| job_of(&line(20, profile, &mut random)))
        .any(|job| match job {
            Job::Drag(points, point) => {
                let mut right = points.clone();
                let answer = number(drag_point(&mut right, point.into()));
                drag(points, point.into(), slip) != (answer, right.currents)
            }
            _ => false,
        })
}

#[test]
fn made_up_jobs_tell_every_slip_of_dragging() {
    assert!(!told(Nothing));
    for slip in SLIPS {
        assert!(told(slip), "{slip:?}");
    }
}
