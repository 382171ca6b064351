//! Slips of the catalogue that the made-up jobs tell.

use super::job_of;
use crate::{
    calls,
    generate::{line, Profile, Random},
    job::{Catalogue, Job, Points},
    limits::{COORDINATE, POINTS},
};

/// What a careless person gets wrong, or nothing.
#[derive(Copy, Clone, PartialEq, Debug)]
enum Slip {
    Nothing,
    EndsCountFromAll,
    NextBehindLastEnd,
    StopsAtRefusal,
    AnswersFirstRefusal,
    EmptyNotAnswered,
    DoneNotAnswered,
    LimitOfAllPoints,
    AnswersBeforeTest,
    OriginalsOnly,
    ContoursNotAdded,
    AnswersNotCounted,
    FourBeforeThree,
    EmptyIgnoresContours,
    CountsMustFit,
}

/// Every slip.
const SLIPS: [Slip; 14] = [
    Slip::EndsCountFromAll,
    Slip::NextBehindLastEnd,
    Slip::StopsAtRefusal,
    Slip::AnswersFirstRefusal,
    Slip::EmptyNotAnswered,
    Slip::DoneNotAnswered,
    Slip::LimitOfAllPoints,
    Slip::AnswersBeforeTest,
    Slip::OriginalsOnly,
    Slip::ContoursNotAdded,
    Slip::AnswersNotCounted,
    Slip::FourBeforeThree,
    Slip::EmptyIgnoresContours,
    Slip::CountsMustFit,
];

/// What counts add up to.
fn sum(counts: &[u16]) -> usize {
    counts.iter().map(|count| usize::from(*count)).sum()
}

/// Whether the whole call is refused.
fn refused(given: &Catalogue, slip: Slip) -> bool {
    let shared = &given.shared;
    let points = sum(&given.point_counts);
    let outlines = given.point_counts.len();
    let others = shared.currents.len() != points || shared.touches.len() != points;
    let contours = shared.ends.len() != sum(&given.contour_counts);
    let answers = given.answers.len() != outlines;
    shared.originals.len() != points
        || others && slip != Slip::OriginalsOnly
        || contours && slip != Slip::ContoursNotAdded
        || given.contour_counts.len() != outlines
        || answers && slip != Slip::AnswersNotCounted
        || points > POINTS && slip == Slip::LimitOfAllPoints
        || slip == Slip::CountsMustFit && !counts_fit(given)
}

/// Whether each outline's last contour end lies within its own points.
fn counts_fit(given: &Catalogue) -> bool {
    let mut ends = given.shared.ends.iter();
    let mut pairs = given.point_counts.iter().zip(&given.contour_counts);
    pairs.all(|(points, contours)| {
        ends.by_ref()
            .take((*contours).into())
            .all(|end| end < points)
    })
}

/// A stretch of a list, as much of it as there is.
fn cut<T: Copy>(list: &[T], from: usize, count: usize) -> Vec<T> {
    list.iter().skip(from).take(count).copied().collect()
}

/// Aligns a part; the answer.
fn align(part: &mut Points, slip: Slip) -> u8 {
    let empty = part.originals.is_empty();
    if slip == Slip::EmptyIgnoresContours && empty {
        return 0;
    }
    let far = |list: &[i32]| list.iter().any(|c| !COORDINATE.contains(c));
    let result = calls::align_weak_points(part);
    match result.map_or_else(|refusal| refusal.0 as u8, |()| 0) {
        3 if slip == Slip::FourBeforeThree && (far(&part.originals) || far(&part.currents)) => 4,
        answer => answer,
    }
}

/// The call with a slip: its answer and what it leaves.
fn catalogue(mut given: Catalogue, slip: Slip) -> (u8, Vec<i32>, Vec<u8>) {
    if slip == Slip::AnswersBeforeTest {
        given.answers.fill(0);
    }
    if refused(&given, slip) {
        return (1, given.shared.currents, given.answers);
    }
    let (mut point, mut contour, mut first_refusal) = (0, 0, 0);
    for ix in 0..given.point_counts.len() {
        let count = usize::from(given.point_counts[ix]);
        let contours = usize::from(given.contour_counts[ix]);
        let shared = &given.shared;
        let mut part = Points {
            originals: cut(&shared.originals, point, count),
            currents: cut(&shared.currents, point, count),
            touches: cut(&shared.touches, point, count),
            ends: cut(&shared.ends, contour, contours),
        };
        if slip == Slip::EndsCountFromAll {
            part.ends
                .iter_mut()
                .for_each(|end| *end = end.wrapping_sub(point as u16));
        }
        let used = part.ends.last().map_or(0, |end| usize::from(*end) + 1);
        let answer = align(&mut part, slip);
        let kept = answer == 0 && slip == Slip::DoneNotAnswered
            || count == 0 && contours == 0 && slip == Slip::EmptyNotAnswered;
        if let Some(place) = given.answers.get_mut(ix).filter(|_| !kept) {
            *place = answer;
        }
        for (place, current) in given
            .shared
            .currents
            .iter_mut()
            .skip(point)
            .zip(part.currents)
        {
            *place = current;
        }
        if answer != 0 && slip == Slip::StopsAtRefusal {
            break;
        }
        if first_refusal == 0 && slip == Slip::AnswersFirstRefusal {
            first_refusal = answer;
        }
        point += if slip == Slip::NextBehindLastEnd {
            used
        } else {
            count
        };
        contour += contours;
    }
    (first_refusal, given.shared.currents, given.answers)
}

/// Whether a made-up job tells the slip.
fn told(slip: Slip) -> bool {
    let mut random = Random::new(106);
    [Profile::Small, Profile::Mixed, Profile::Limits]
        .into_iter()
        .flat_map(|profile| std::iter::repeat_n(profile, 2_000))
        .filter_map(|profile| job_of(&line(17, profile, &mut random)))
        .any(|job| match job {
            Job::Catalogue(given) => catalogue(given.clone(), slip) != right(given),
            _ => false,
        })
}

/// The call: its answer and what it leaves.
fn right(mut given: Catalogue) -> (u8, Vec<i32>, Vec<u8>) {
    let answer = calls::align_catalogue(&mut given);
    let answer = answer.map_or_else(|refusal| refusal.0 as u8, |()| 0);
    (answer, given.shared.currents, given.answers)
}

#[test]
fn made_up_jobs_tell_every_slip_of_the_catalogue() {
    assert!(!told(Slip::Nothing));
    for slip in SLIPS {
        assert!(told(slip), "{slip:?}");
    }
}
