//! Remembered references, request #110: worked lists, the order of refusals, and a second way to find what is known of a point.

use crate::{
    calls,
    generate::{few, line, Random, PROFILES},
    job::{Job, Points, References},
    limits::COORDINATE,
    references::{align_with_references, known, remember_references, remembered, Known},
    refusals::Refusal,
    tests::job_of,
};

/// A list of these pairs.
fn list(pairs: &[[u16; 2]]) -> References {
    References {
        before: pairs.iter().map(|pair| pair[0]).collect(),
        behind: pairs.iter().map(|pair| pair[1]).collect(),
    }
}

/// The numbers of the three cases without references.
const TOUCHED: [u16; 2] = [65_535; 2];
const NO_CONTOUR: [u16; 2] = [65_534; 2];
const ONE_OR_NONE: [u16; 2] = [65_533; 2];

#[test]
fn references_go_around_the_contour() {
    // Before the first touched point of a contour is its last one, and behind the last its first.
    let made = remembered(&[0, 1, 0, 0, 1, 0], &[5]);
    assert_eq!(
        made,
        list(&[[4, 1], TOUCHED, [1, 4], [1, 4], TOUCHED, [4, 1]])
    );
    // A second contour has neighbours of its own, by their indices in the outline.
    let made = remembered(&[1, 0, 1, 0, 1, 1, 0], &[2, 6]);
    let second = [[5, 4], TOUCHED, TOUCHED, [5, 4]];
    assert_eq!(
        made,
        list(&[&[TOUCHED, [0, 2], TOUCHED], &second[..]].concat())
    );
}

#[test]
fn touched_comes_before_all_others() {
    // None and one touched point are one case, without the point; touched ones are touched alone on their contour, and on none.
    let made = remembered(&[0, 0, 0, 7, 0, 9, 0], &[1, 4]);
    let pairs = [
        ONE_OR_NONE,
        ONE_OR_NONE,
        ONE_OR_NONE,
        TOUCHED,
        ONE_OR_NONE,
        TOUCHED,
        NO_CONTOUR,
    ];
    assert_eq!(made, list(&pairs));
    assert_eq!(remembered(&[], &[]), list(&[]));
    assert_eq!(remembered(&[0, 1], &[]), list(&[NO_CONTOUR, TOUCHED]));
}

/// An outline on one contour whose middle point is not touched.
fn three(originals: [i32; 3], currents: [i32; 3]) -> Points {
    Points {
        originals: originals.to_vec(),
        currents: currents.to_vec(),
        touches: vec![1, 0, 1],
        ends: vec![2],
    }
}

#[test]
fn one_list_serves_at_every_size() {
    let mut known = list(&[[0, 0]; 3]);
    let sizes = [
        (three([10, 7, 5], [64, 7, 0]), 26),
        // At equal originals the one before is the first, and the point is at or above the second.
        (three([5, 7, 5], [64, 7, 0]), 2),
        (three([5, 5, 5], [64, 5, 0]), 64),
        (three([5, 7, 10], [64, 7, 0]), 38),
    ];
    let [first, ..] = &sizes;
    assert_eq!(
        remember_references(&first.0.touches, &first.0.ends, &mut known),
        Ok(())
    );
    assert_eq!(known, list(&[TOUCHED, [0, 2], TOUCHED]));
    for (mut points, place) in sizes {
        assert_eq!(align_with_references(&mut points, &known), Ok(()));
        assert_eq!(points.currents[1], place);
    }
    // First and second in place of before and behind are no match.
    let ordered = list(&[TOUCHED, [2, 0], TOUCHED]);
    let mut points = three([10, 7, 5], [64, 7, 0]);
    assert_eq!(
        align_with_references(&mut points, &ordered),
        Err(Refusal(9))
    );
}

#[test]
fn other_marks_of_the_same_points_match() {
    let known = remembered(&[1, 0, 1], &[2]);
    let mut points = three([0, 1, 3], [0, 1, 64]);
    points.touches = vec![255, 0, 128];
    assert_eq!(align_with_references(&mut points, &known), Ok(()));
    assert_eq!(points.currents, [0, 21, 64]);
}

#[test]
fn every_number_is_read() {
    let known = remembered(&[1, 0, 1], &[2]);
    let points = three([0, 1, 3], [0, 1, 64]);
    for ix in 0..3 {
        for number in (0..=4).chain([4_095, 4_096]).chain(65_531..=65_535) {
            for both in [false, true] {
                let mut other = known.clone();
                other.before[ix] = number;
                if both {
                    other.behind[ix] = number;
                }
                let answer = align_with_references(&mut points.clone(), &other);
                let right = if other == known {
                    Ok(())
                } else {
                    Err(Refusal(9))
                };
                assert_eq!(answer, right);
            }
        }
    }
}

#[test]
fn remembering_refuses_in_order_and_writes_nothing() {
    let mut lent = list(&[[7, 8]; 3]);
    for (touches, ends, lengths, answer) in [
        (2, vec![9], (3, 3), 1),
        (3, vec![9], (2, 3), 1),
        (3, vec![9], (3, 4), 1),
        (4_097, vec![9, 8], (4_097, 4_097), 1),
        (3, vec![3], (3, 3), 3),
        (3, vec![1, 1], (3, 3), 3),
        (3, vec![2, 0], (3, 3), 3),
        (0, vec![0], (0, 0), 3),
    ] {
        lent.before = vec![7; lengths.0];
        lent.behind = vec![8; lengths.1];
        let before = lent.clone();
        let marks = vec![1; touches];
        assert_eq!(
            remember_references(&marks, &ends, &mut lent),
            Err(Refusal(answer))
        );
        assert_eq!(lent, before);
    }
    let mut most = list(&[[0, 0]; 4_096]);
    assert_eq!(
        remember_references(&[0; 4_096], &[4_095], &mut most),
        Ok(())
    );
    assert_eq!(most, list(&[ONE_OR_NONE; 4_096]));
}

#[test]
fn aligning_refuses_in_order_and_writes_nothing() {
    let far = COORDINATE.end() + 1;
    let mut points = three([far, 7, 5], [64, 7, 0]);
    points.ends = vec![2, 2];
    let mut wrong = list(&[TOUCHED, [2, 0], TOUCHED]);
    wrong.behind.pop();
    let mut answers = Vec::new();
    for mend in 0..6 {
        match mend {
            1 => wrong.behind.push(65_535),
            2 => drop(points.ends.pop()),
            3 => wrong = remembered(&points.touches, &points.ends),
            4 => points.originals[0] = 10,
            _ => {}
        }
        let mut lent = points.clone();
        let answer = align_with_references(&mut lent, &wrong);
        answers.push(answer.map_or_else(|refusal| refusal.0, |()| 0));
        if answer.is_err() {
            assert_eq!(lent, points);
        }
    }
    assert_eq!(answers, [1, 3, 9, 4, 0, 0]);
}

#[test]
fn too_steep_comes_last() {
    // A span of 2 that rises by 65,536: its quotient is 2,147,483,648.
    let steep = three([0, 1, 2], [-1, 1, 65_535]);
    let far = three([0, 1, 65_536], [-1, 1, 65_535]);
    let right = remembered(&steep.touches, &steep.ends);
    let wrong = list(&[TOUCHED, [2, 0], TOUCHED]);
    for (points, list, answer) in [(&steep, &wrong, 9), (&far, &right, 4), (&steep, &right, 8)] {
        let mut lent = points.clone();
        assert_eq!(align_with_references(&mut lent, list), Err(Refusal(answer)));
        assert_eq!(lent, *points);
    }
    let mut less = three([0, 1, 2], [0, 1, 65_535]);
    assert_eq!(align_with_references(&mut less, &right), Ok(()));
    assert_eq!(less.currents, [0, 32_768, 65_535]);
}

#[test]
fn a_list_of_another_length_is_refused_by_1_though_it_could_match() {
    let mut points = three([0, 1, 3], [0, 1, 64]);
    for (before, behind) in [(2, 3), (3, 2), (4, 3), (3, 4), (0, 0), (4, 4)] {
        let mut long = remembered(&[1, 0, 1, 0], &[2]);
        long.before.truncate(before);
        long.behind.truncate(behind);
        points.ends = vec![9];
        assert_eq!(align_with_references(&mut points, &long), Err(Refusal(1)));
    }
    points.currents.pop();
    let right = remembered(&[1, 0, 1], &[2]);
    assert_eq!(align_with_references(&mut points, &right), Err(Refusal(1)));
}

/// What is known of a point, found by steps around its contour.
fn by_steps(touches: &[u8], ends: &[u16], ix: usize) -> Known {
    let is_touched = |ix: usize| touches[ix] > 0;
    let Some(last) = ends
        .iter()
        .map(|end| usize::from(*end))
        .find(|end| *end >= ix)
    else {
        return if is_touched(ix) {
            Known::Touched
        } else {
            Known::NoContour
        };
    };
    let first = (0..=ix)
        .rev()
        .find(|ix| *ix == 0 || ends.contains(&(*ix as u16 - 1)))
        .expect("the first point starts a contour");
    let behind = |ix: usize| if ix == last { first } else { ix + 1 };
    let before = |ix: usize| if ix == first { last } else { ix - 1 };
    if is_touched(ix) {
        return Known::Touched;
    }
    let (mut low, mut high) = (before(ix), behind(ix));
    while low != ix && !is_touched(low) {
        low = before(low);
    }
    while high != ix && !is_touched(high) {
        high = behind(high);
    }
    if low == high {
        Known::OneOrNone
    } else {
        Known::Two(low as u16, high as u16)
    }
}

#[test]
fn steps_around_the_contour_find_the_same() {
    let mut outlines = 0;
    for count in 0..=6 {
        for (touches, ends) in few::marked(count) {
            let steps: Vec<Known> = (0..count).map(|ix| by_steps(&touches, &ends, ix)).collect();
            assert_eq!(known(&touches, &ends), steps, "{touches:?} {ends:?}");
            outlines += 1;
        }
    }
    assert_eq!(outlines, 55_987);
}

#[test]
fn alignment_with_the_list_is_alignment_without() {
    let mut outlines = 0;
    for count in 0..=4 {
        // Of four points, one outline in seven.
        for mut points in few::placed(count).step_by(if count < 4 { 1 } else { 7 }) {
            let known = remembered(&points.touches, &points.ends);
            let mut without = points.clone();
            assert_eq!(calls::align_weak_points(&mut without), Ok(()));
            assert_eq!(align_with_references(&mut points, &known), Ok(()));
            assert_eq!(points, without);
            outlines += 1;
        }
    }
    assert_eq!(outlines, 14_425 + 47_397);
}

#[test]
fn nine_is_for_the_lists_that_do_not_match() {
    let mut matching = 0;
    for count in 0..=2 {
        let numbers: Vec<u16> = (0..=count as u16).chain(65_532..=65_535).collect();
        for (touches, ends) in few::marked(count) {
            let points = Points {
                originals: vec![0; count],
                currents: vec![1; count],
                touches,
                ends,
            };
            let steps: Vec<[u16; 2]> = (0..count)
                .map(|ix| by_steps(&points.touches, &points.ends, ix).numbers())
                .collect();
            for numbers in few::lists(&numbers, 2 * count) {
                let other = References {
                    before: numbers[..count].to_vec(),
                    behind: numbers[count..].to_vec(),
                };
                let answer = align_with_references(&mut points.clone(), &other);
                let matches = other == list(&steps);
                assert_eq!(answer, if matches { Ok(()) } else { Err(Refusal(9)) });
                matching += u32::from(matches);
            }
        }
    }
    assert_eq!(matching, 1 + 6 + 36);
}

#[test]
fn made_up_lists_are_answered_by_9_or_as_without() {
    let mut random = Random::new(110);
    let mut answers = [0; 10];
    for (_, profile) in PROFILES {
        for _ in 0..3_000 {
            let Some(Job::WithReferences(given, known)) = job_of(&line(19, profile, &mut random))
            else {
                continue;
            };
            let (mut with, mut without) = (given.clone(), given.clone());
            let answer = align_with_references(&mut with, &known);
            let plain = calls::align_weak_points(&mut without);
            let count = given.originals.len();
            let expected = match plain {
                _ if known.before.len() != count || known.behind.len() != count => Err(Refusal(1)),
                Err(Refusal(1 | 3)) => plain,
                _ => {
                    let steps = |ix| by_steps(&given.touches, &given.ends, ix).numbers();
                    let right: Vec<[u16; 2]> = (0..count).map(steps).collect();
                    if known == list(&right) {
                        plain
                    } else {
                        Err(Refusal(9))
                    }
                }
            };
            assert_eq!(answer, expected);
            let left = if answer.is_ok() { without } else { given };
            assert_eq!(with, left);
            answers[answer.map_or_else(|refusal| refusal.0 as usize, |()| 0)] += 1;
        }
    }
    for number in [0, 1, 3, 4, 8, 9] {
        assert!(answers[number] > 100, "{answers:?}");
    }
}
