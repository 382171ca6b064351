//! One point dragged, request #111: worked drags, the order of refusals, and the claims on aligned buffers and on others.

use crate::{
    calls,
    drag::{dependants, drag_point},
    generate::{few, line, Random, PROFILES},
    job::{Job, Points},
    limits::COORDINATE,
    refusals::Refusal,
    tests::job_of,
};

/// An outline whose currents are its originals.
fn unmoved(originals: &[i32], touches: &[u8], ends: &[u16]) -> Points {
    Points {
        originals: originals.to_vec(),
        currents: originals.to_vec(),
        touches: touches.to_vec(),
        ends: ends.to_vec(),
    }
}

/// What a drag of a point to a place leaves, which must be done.
fn dragged(mut points: Points, point: usize, place: i32) -> Vec<i32> {
    points.currents[point] = place;
    assert_eq!(drag_point(&mut points, point as u32), Ok(()));
    points.currents
}

#[test]
fn both_stretches_follow_and_no_other() {
    let points = unmoved(&[0, 10, 20, 30, 40, 50], &[1, 0, 1, 0, 1, 0], &[5]);
    assert_eq!(dragged(points.clone(), 2, 40), [0, 20, 40, 40, 40, 50]);
    // The last stretch goes over the seam.
    assert_eq!(dragged(points.clone(), 4, 80), [0, 10, 20, 50, 80, 90]);
    assert_eq!(dragged(points, 0, 20), [20, 20, 20, 30, 40, 50]);
}

#[test]
fn a_stretch_around_the_seam_has_points_on_both_sides() {
    let points = unmoved(&[10, 20, 30, 40, 0], &[0, 1, 0, 1, 0], &[4]);
    let mut other = points.clone();
    // With two touched points every stretch has both of them as references.
    assert_eq!(dragged(points, 1, 30), [20, 30, 35, 40, 10]);
    other.touches = vec![0, 1, 1, 1, 0];
    assert_eq!(dragged(other.clone(), 3, 60), [10, 20, 30, 60, 0]);
    assert_eq!(dragged(other, 2, 90), [10, 20, 90, 40, 0]);
}

#[test]
fn the_only_touched_point_takes_its_contour_along() {
    let points = unmoved(&[0, 10, 20, 30], &[0, 1, 0, 0], &[2, 3]);
    assert_eq!(dragged(points, 1, 15), [5, 15, 25, 30]);
}

#[test]
fn an_only_touched_point_set_back_moves_nothing() {
    // The others keep the old delta: the full alignment of the buffer leaves them, too.
    let mut points = unmoved(&[0, 10, 20], &[1, 0, 0], &[2]);
    points.currents[0] = 5;
    assert_eq!(calls::align_weak_points(&mut points), Ok(()));
    assert_eq!(points.currents, [5, 15, 25]);
    assert_eq!(dragged(points, 0, 0), [0, 15, 25]);
}

#[test]
fn the_rest_keeps_what_it_held() {
    let mut points = unmoved(&[0, 10, 20, 30, 40, 50], &[1, 0, 1, 0, 1, 0], &[5]);
    points.currents = vec![0, 91, 20, 92, 40, 93];
    assert_eq!(dragged(points, 0, 4), [4, 12, 20, 92, 40, 50]);
}

#[test]
fn a_touched_point_of_no_contour_moves_nothing() {
    let points = unmoved(&[0, 10, 20], &[1, 0, 1], &[1]);
    assert_eq!(dragged(points.clone(), 2, 64), [0, 10, 64]);
    let points = unmoved(&[0, 10], &[1, 0], &[]);
    assert_eq!(dragged(points, 0, 64), [64, 10]);
}

#[test]
fn the_first_reference_goes_by_originals() {
    let points = unmoved(&[40, 20, 0], &[1, 0, 1], &[2]);
    assert_eq!(dragged(points.clone(), 2, 90), [40, 65, 90]);
    // At equal originals it is the one before.
    let points = unmoved(&[5, 5, 5, 6], &[1, 0, 1, 0], &[3]);
    assert_eq!(dragged(points.clone(), 0, 64), [64, 64, 5, 65]);
    assert_eq!(dragged(points, 2, 64), [5, 5, 64, 6]);
}

#[test]
fn results_beyond_the_limit_are_refused_when_dragged() {
    let most = *COORDINATE.end();
    let mut points = unmoved(&[0, most], &[1, 0], &[1]);
    points.currents[0] = 1;
    assert_eq!(calls::align_weak_points(&mut points), Ok(()));
    assert_eq!(points.currents, [1, most + 1]);
    points.currents[0] = 0;
    assert_eq!(drag_point(&mut points, 0), Err(Refusal(4)));
    assert_eq!(calls::align_weak_points(&mut points), Err(Refusal(4)));
    assert_eq!(points.currents, [0, most + 1]);
}

#[test]
fn dragging_refuses_in_order_and_writes_nothing() {
    let far = COORDINATE.end() + 1;
    let mut points = unmoved(&[0, far, 20], &[1, 0], &[2, 2]);
    points.currents[0] = 5;
    let mut point = 3;
    let mut answers = Vec::new();
    for mend in 0..7 {
        match mend {
            1 => points.touches.push(0),
            2 => drop(points.ends.pop()),
            3 => point = 1,
            4 => point = 0,
            5 => points.originals[1] = 10,
            6 => points.currents[1] = 10,
            _ => {}
        }
        let mut lent = points.clone();
        let answer = drag_point(&mut lent, point);
        answers.push(answer.map_or_else(|refusal| refusal.0, |()| 0));
        if answer.is_err() {
            assert_eq!(lent, points);
        }
    }
    assert_eq!(answers, [1, 3, 3, 3, 4, 4, 0]);
    for point in [2, 3, 65_535, 65_536, u32::MAX] {
        assert_eq!(drag_point(&mut points, point), Err(Refusal(3)));
    }
}

#[test]
fn a_steep_place_is_refused_whether_it_depends_on_the_point_or_not() {
    let mut points = unmoved(&[0, 1, 2, 5, 6], &[1, 0, 1, 1, 0], &[2, 4]);
    (points.currents[0], points.currents[2]) = (-1, 65_535);
    for point in [0, 2, 3] {
        let mut lent = points.clone();
        assert_eq!(drag_point(&mut lent, point), Err(Refusal(8)));
        assert_eq!(lent, points);
    }
    assert_eq!(drag_point(&mut points, 1), Err(Refusal(3)));
    assert_eq!(drag_point(&mut points, 5), Err(Refusal(3)));
    points.currents[4] = 65_536;
    assert_eq!(drag_point(&mut points, 0), Err(Refusal(4)));
    points.currents[4] = 6;
    assert_eq!(dragged(points, 0, 0), [0, 32_768, 65_535, 5, 6]);
}

#[test]
fn a_far_point_of_another_contour_is_refused_too() {
    let mut points = unmoved(&[0, 10, 20, 30], &[1, 0, 0, 0], &[1, 2]);
    points.currents[3] = COORDINATE.end() + 1;
    assert_eq!(drag_point(&mut points, 0), Err(Refusal(4)));
}

/// Whether a point depends on another, by the request's words: steps from it around its contour find the other as a nearest touched point.
fn depends(points: &Points, point: usize, ix: usize) -> bool {
    let is_touched = |ix: usize| points.touches[ix] > 0;
    let ends = || points.ends.iter().map(|end| usize::from(*end));
    let Some(last) = ends().find(|end| *end >= ix).filter(|_| !is_touched(ix)) else {
        return false;
    };
    let first = ends().rfind(|end| *end < ix).map_or(0, |end| end + 1);
    let count = last - first + 1;
    let at = |step: usize| first + (ix - first + step) % count;
    let behind = (1..count).map(at).find(|ix| is_touched(*ix));
    let before = (1..count).rev().map(at).find(|ix| is_touched(*ix));
    behind == Some(point) || before == Some(point)
}

/// Sees that a drag does what the request says of any buffer: hands back how many points it wrote.
fn any_buffer(points: &Points, point: u32) -> Result<usize, Refusal> {
    let (mut left, mut full) = (points.clone(), points.clone());
    let aligned = calls::align_weak_points(&mut full);
    let answer = drag_point(&mut left, point);
    let there = points
        .touches
        .get(point as usize)
        .is_some_and(|mark| *mark > 0);
    match aligned {
        Err(Refusal(1 | 3)) => assert_eq!(answer, aligned),
        _ if !there => assert_eq!(answer, Err(Refusal(3))),
        _ => assert_eq!(answer, aligned),
    }
    if answer.is_err() {
        assert_eq!(left, *points);
    }
    answer?;
    let point = point as usize;
    let follow: Vec<usize> = (0..points.originals.len())
        .filter(|ix| depends(points, point, *ix))
        .collect();
    assert_eq!(dependants(points, point), follow);
    for ix in 0..points.originals.len() {
        let from = if follow.contains(&ix) { &full } else { points };
        assert_eq!(left.currents[ix], from.currents[ix]);
    }
    Ok(follow.len())
}

/// Sees that a drag on what the full alignment left is the full alignment, for a place of the point: hands back whether it was done.
fn aligned_buffer(points: &Points, point: usize, place: i32) -> bool {
    let mut buffer = points.clone();
    assert_eq!(calls::align_weak_points(&mut buffer), Ok(()));
    buffer.currents[point] = place;
    let mut full = buffer.clone();
    let aligned = calls::align_weak_points(&mut full);
    assert_eq!(drag_point(&mut buffer, point as u32), aligned);
    assert_eq!(buffer, full);
    aligned.is_ok()
}

#[test]
fn small_outlines_on_any_buffer_and_on_aligned_ones() {
    let (mut drags, mut aligned) = (0, 0);
    for count in 0..=3 {
        for points in few::placed(count) {
            for point in 0..=count {
                drags += u32::from(any_buffer(&points, point as u32).is_ok());
                if points.touches.get(point).is_some_and(|mark| *mark > 0) {
                    for place in [0, 1, 4, -2] {
                        aligned += u32::from(aligned_buffer(&points, point, place));
                    }
                }
            }
        }
    }
    assert_eq!((drags, aligned), (21_324, 85_296));
}

#[test]
fn made_up_outlines_on_any_buffer_and_on_aligned_ones() {
    let mut random = Random::new(111);
    let (mut answers, mut aligned, mut follow) = ([0; 10], [0; 2], 0);
    for (_, profile) in PROFILES {
        for _ in 0..3_000 {
            let Some(Job::Drag(points, point)) = job_of(&line(20, profile, &mut random)) else {
                continue;
            };
            let answer = any_buffer(&points, point.into());
            answers[answer.map_or_else(|refusal| refusal.0 as usize, |_| 0)] += 1;
            follow += answer.unwrap_or(0);
            if answer.is_ok() {
                let place = points.currents[usize::from(point)] + random.between(-99, 99);
                let done = aligned_buffer(&points, point.into(), place);
                aligned[usize::from(done)] += 1;
            }
        }
    }
    for number in [0, 1, 3, 4, 8] {
        assert!(answers[number] > 100, "{answers:?}");
    }
    assert!(aligned[0] > 20 && aligned[1] > 2_000, "{aligned:?}");
    assert!(follow > 5_000, "{follow}");
}
