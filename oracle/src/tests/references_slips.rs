//! Slips of remembered references that the made-up jobs tell.

use super::job_of;
use crate::{
    calls,
    generate::{line, Profile, Random},
    job::{Job, Points, References},
    limits::{COORDINATE, POINTS},
    references::{align_with_references, remember_references},
    refusals::{Answer, Refusal},
};
use std::ops::Range;

/// What a careless person gets wrong, or nothing.
#[derive(Copy, Clone, PartialEq, Debug)]
enum Slip {
    Nothing,
    // what is known of a point
    MarkIsOne,
    MarkIsSigned,
    NoWayAround,
    OneContour,
    FirstContourOnly,
    ContourFromTheEndBefore,
    LoneTwice,
    LoneIsOneOrNone,
    TouchedOfNoContour,
    NoneIsNoContour,
    TwoAreFew,
    OtherOrder,
    BehindTwice,
    // the tests of call 18
    OneMore,
    LengthsBehindEnds,
    LongerLists,
    BehindOfAnyLength,
    // those of call 19
    NineBehindFour,
    NineBeforeThree,
    LengthIsNine,
    TouchedUnread,
    BeforeUnread,
    BehindUnread,
    LastUnread,
    CasesUnread,
    CasesAlike,
    FirstAndSecond,
    BeyondIsOneOrNone,
}

use Slip::*;

/// Slips that lists which are made show.
const MADE: [Slip; 17] = [
    MarkIsOne,
    MarkIsSigned,
    NoWayAround,
    OneContour,
    FirstContourOnly,
    ContourFromTheEndBefore,
    LoneTwice,
    LoneIsOneOrNone,
    TouchedOfNoContour,
    NoneIsNoContour,
    TwoAreFew,
    OtherOrder,
    BehindTwice,
    OneMore,
    LengthsBehindEnds,
    LongerLists,
    BehindOfAnyLength,
];

/// Slips that lists which are read show: those of what is known, and these.
const READ: [Slip; 11] = [
    NineBehindFour,
    NineBeforeThree,
    LengthIsNine,
    TouchedUnread,
    BeforeUnread,
    BehindUnread,
    LastUnread,
    CasesUnread,
    CasesAlike,
    FirstAndSecond,
    BeyondIsOneOrNone,
];

const TOUCHED: u16 = 65_535;
const NO_CONTOUR: u16 = 65_534;
const ONE_OR_NONE: u16 = 65_533;

/// A point's two numbers.
fn numbers(touches: &[u8], ends: &[u16], ix: usize, slip: Slip) -> [u16; 2] {
    let touched = |ix: usize| match slip {
        MarkIsOne => touches[ix] == 1,
        MarkIsSigned => (touches[ix] as i8) > 0,
        _ => touches[ix] != 0,
    };
    let contour = contour(touches, ends, ix, slip);
    let few = if slip == TwoAreFew { 3 } else { 2 };
    let on_contour: Vec<usize> = contour
        .clone()
        .unwrap_or(0..0)
        .filter(|ix| touched(*ix))
        .collect();
    if touched(ix) {
        return match slip {
            TouchedOfNoContour if contour.is_none() => [NO_CONTOUR; 2],
            LoneIsOneOrNone if on_contour.len() == 1 => [ONE_OR_NONE; 2],
            _ => [TOUCHED; 2],
        };
    }
    let Some(contour) = contour else {
        return [NO_CONTOUR; 2];
    };
    if on_contour.len() < few {
        return match on_contour[..] {
            [one] if slip == LoneTwice => [one as u16; 2],
            [] if slip == NoneIsNoContour => [NO_CONTOUR; 2],
            _ => [ONE_OR_NONE; 2],
        };
    }
    let (first, last) = (on_contour[0], on_contour[on_contour.len() - 1]);
    let around = slip != NoWayAround;
    let before = (contour.start..ix).rev().find(|ix| touched(*ix));
    let before = before.unwrap_or(if around { last } else { contour.start }) as u16;
    let behind = (ix..contour.end).find(|ix| touched(*ix));
    let behind = behind.unwrap_or(if around { first } else { contour.end - 1 }) as u16;
    match slip {
        OtherOrder => [behind, before],
        BehindTwice => [behind, behind],
        _ => [before, behind],
    }
}

/// The points of a point's contour, if it has one.
fn contour(touches: &[u8], ends: &[u16], ix: usize, slip: Slip) -> Option<Range<usize>> {
    if slip == OneContour {
        return Some(0..touches.len());
    }
    let place = ends.iter().position(|end| usize::from(*end) >= ix)?;
    if slip == FirstContourOnly && place > 0 {
        return None;
    }
    let from = usize::from(slip != ContourFromTheEndBefore);
    let first = if place == 0 {
        0
    } else {
        usize::from(ends[place - 1]) + from
    };
    Some(first..usize::from(ends[place]) + 1)
}

/// Whether contour ends are good.
fn are_ends(ends: &[u16], count: usize) -> bool {
    ends.windows(2).all(|pair| pair[0] < pair[1])
        && ends.iter().all(|end| usize::from(*end) < count)
}

/// Call 18 with a slip: its answer and what it leaves.
fn remember(touches: &[u8], ends: &[u16], mut list: References, slip: Slip) -> (i32, References) {
    let count = touches.len();
    let (before, behind) = (list.before.len(), list.behind.len());
    let unlike = match slip {
        LongerLists => before < count || behind < count,
        BehindOfAnyLength => before != count,
        _ => before != count || behind != count,
    };
    let most = if slip == OneMore { POINTS + 1 } else { POINTS };
    let bad = !are_ends(ends, count);
    if slip == LengthsBehindEnds && bad {
        return (3, list);
    }
    if count > most || unlike {
        return (1, list);
    }
    if bad {
        return (3, list);
    }
    for ix in 0..count {
        let [before, behind] = numbers(touches, ends, ix, slip);
        list.before[ix] = before;
        if let Some(place) = list.behind.get_mut(ix) {
            *place = behind;
        }
    }
    (0, list)
}

/// Whether a point's numbers match.
fn matches(points: &Points, ix: usize, found: [u16; 2], slip: Slip) -> bool {
    let right = numbers(&points.touches, &points.ends, ix, slip);
    let original = |number: u16| points.originals[usize::from(number)];
    let is_index = |number: u16| usize::from(number) < points.touches.len();
    match slip {
        TouchedUnread if right == [TOUCHED; 2] => true,
        CasesUnread if right[0] > 4_095 => true,
        CasesAlike if right[0] > 4_095 && right[0] < TOUCHED => {
            [[NO_CONTOUR; 2], [ONE_OR_NONE; 2]].contains(&found)
        }
        BeyondIsOneOrNone if right == [ONE_OR_NONE; 2] => {
            !is_index(found[0]) && found[0] < NO_CONTOUR
        }
        BeforeUnread => right[1] == found[1],
        BehindUnread => right[0] == found[0],
        LastUnread if ix + 1 == points.touches.len() => true,
        FirstAndSecond
            if is_index(right[0])
                && is_index(right[1])
                && original(right[1]) < original(right[0]) =>
        {
            [right[1], right[0]] == found
        }
        _ => right == found,
    }
}

/// Call 19 with a slip: its answer and what it leaves.
fn align(points: Points, list: &References, slip: Slip) -> (i32, Vec<i32>) {
    let count = points.originals.len();
    let mut aligned = points.clone();
    let answer = number(calls::align_weak_points(&mut aligned));
    let unlike = list.before.len() != count || list.behind.len() != count;
    let far = |list: &[i32]| list.iter().any(|c| !COORDINATE.contains(c));
    let refused = |number: i32| (number, points.currents.clone());
    if unlike {
        return refused(if slip == LengthIsNine && answer != 1 && answer != 3 {
            9
        } else {
            1
        });
    }
    if answer == 1 || answer == 3 && slip != NineBeforeThree {
        return refused(answer);
    }
    let pairs = list.before.iter().zip(&list.behind);
    let good = are_ends(&points.ends, count)
        && pairs
            .enumerate()
            .all(|(ix, (before, behind))| matches(&points, ix, [*before, *behind], slip));
    let four = slip == NineBehindFour && (far(&points.originals) || far(&points.currents));
    if !good && !four {
        return refused(9);
    }
    if answer != 0 {
        return refused(answer);
    }
    (0, aligned.currents)
}

/// The number of an answer.
fn number(answer: Answer<()>) -> i32 {
    answer.map_or_else(|Refusal(number)| number, |()| 0)
}

/// Whether a made-up job of a call tells the slip.
fn told(call: usize, slip: Slip) -> bool {
    let mut random = Random::new(110);
    [Profile::Small, Profile::Mixed, Profile::Limits]
        .into_iter()
        .flat_map(|profile| std::iter::repeat_n(profile, 2_000))
        .filter_map(|profile| job_of(&line(call, profile, &mut random)))
        .any(|job| match job {
            Job::Remember(touches, ends, list) => {
                let mut right = list.clone();
                let answer = number(remember_references(&touches, &ends, &mut right));
                remember(&touches, &ends, list, slip) != (answer, right)
            }
            Job::WithReferences(points, list) => {
                let mut right = points.clone();
                let answer = number(align_with_references(&mut right, &list));
                align(points, &list, slip) != (answer, right.currents)
            }
            _ => false,
        })
}

#[test]
fn made_up_jobs_tell_every_slip_of_the_references() {
    assert!(!told(18, Nothing));
    assert!(!told(19, Nothing));
    for slip in MADE {
        assert!(told(18, slip), "{slip:?}");
    }
    // What is known of a point is wrong in the same ways where it is read.
    for slip in MADE[..13].iter().chain(&READ) {
        assert!(told(19, *slip), "{slip:?}");
    }
}
