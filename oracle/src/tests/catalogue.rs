//! Worked catalogues of request #106.

use crate::{
    calls,
    generate::{line, Random, PROFILES},
    job::{Catalogue, Job, Points},
    refusals::Refusal,
    tests::job_of,
};

/// Four outlines: one moved point and two that follow, none at all, one refused, two points of which one has no contour.
fn four() -> Catalogue {
    Catalogue {
        shared: Points {
            originals: vec![0, 10, 20, 65_536, 1, 0, 7],
            currents: vec![5, 99, 20, 3, 4, 2, 8],
            touches: vec![1, 0, 0, 1, 0, 1, 0],
            ends: vec![2, 0, 1, 0],
        },
        point_counts: vec![3, 0, 2, 2],
        contour_counts: vec![1, 0, 2, 1],
        answers: vec![9, 9, 9, 9],
    }
}

#[test]
fn refused_outlines_keep_their_numbers_and_the_rest_go_on() {
    let mut given = four();
    given.shared.touches[6] = 1;
    given.shared.ends = vec![2, 0, 1, 1];
    given.shared.originals.push(30);
    given.shared.currents.push(30);
    given.shared.touches.push(0);
    given.point_counts[3] = 3;
    assert_eq!(calls::align_catalogue(&mut given), Ok(()));
    assert_eq!(given.answers, [0, 0, 4, 0]);
    assert_eq!(given.shared.currents, [5, 15, 25, 3, 4, 2, 8, 30]);
}

#[test]
fn a_bad_end_comes_before_a_bad_coordinate() {
    let mut given = four();
    given.shared.ends[2] = 2;
    assert_eq!(calls::align_catalogue(&mut given), Ok(()));
    assert_eq!(given.answers, [0, 0, 3, 0]);
}

#[test]
fn contours_without_points_are_refused_by_3() {
    let mut given = four();
    given.contour_counts = vec![1, 2, 0, 1];
    assert_eq!(calls::align_catalogue(&mut given), Ok(()));
    assert_eq!(given.answers, [0, 3, 4, 0]);
}

#[test]
fn no_outlines_at_all() {
    let mut given = Catalogue {
        shared: Points {
            originals: vec![],
            currents: vec![],
            touches: vec![],
            ends: vec![],
        },
        point_counts: vec![],
        contour_counts: vec![],
        answers: vec![],
    };
    assert_eq!(calls::align_catalogue(&mut given), Ok(()));
}

#[test]
fn lists_that_do_not_add_up_are_refused_and_nothing_is_written() {
    let unlike: [fn(&mut Catalogue); 11] = [
        |c| c.shared.originals.push(0),
        |c| c.shared.currents.push(0),
        |c| c.shared.touches.push(0),
        |c| c.shared.ends.push(0),
        |c| c.point_counts.push(0),
        |c| c.contour_counts.push(0),
        |c| c.answers.push(0),
        |c| c.answers.truncate(3),
        |c| c.point_counts[1] += 1,
        |c| c.point_counts[0] -= 1,
        |c| c.contour_counts[2] -= 1,
    ];
    for change in unlike {
        let mut given = four();
        change(&mut given);
        let before = given.clone();
        assert_eq!(calls::align_catalogue(&mut given), Err(Refusal(1)));
        assert_eq!(given, before);
    }
}

#[test]
fn a_point_moved_to_the_neighbour_is_no_refusal_of_the_call() {
    let mut given = four();
    given.point_counts = vec![2, 1, 2, 2];
    assert_eq!(calls::align_catalogue(&mut given), Ok(()));
    assert_eq!(given.answers, [3, 0, 4, 0]);
    assert_eq!(given.shared.currents, [5, 99, 20, 3, 4, 2, 8]);
}

#[test]
fn the_limit_of_points_is_each_outlines_own() {
    let mut given = four();
    for count in [4_096, 4_097] {
        given.shared.originals.extend(vec![1; count]);
        given.shared.currents.extend(vec![1; count]);
        given.shared.touches.extend(vec![0; count]);
        given.point_counts.push(count as u16);
        given.contour_counts.push(0);
        given.answers.push(9);
    }
    assert_eq!(calls::align_catalogue(&mut given), Ok(()));
    assert_eq!(given.answers, [0, 0, 4, 0, 0, 1]);
}

/// The parts of a catalogue, as outlines of their own.
fn parts(given: &Catalogue) -> Vec<Points> {
    let (mut points, mut ends) = (0, 0);
    let mut parts = Vec::new();
    for (count, contours) in given.point_counts.iter().zip(&given.contour_counts) {
        let (count, contours) = (usize::from(*count), usize::from(*contours));
        let cut = |list: &[i32]| list.iter().skip(points).take(count).copied().collect();
        parts.push(Points {
            originals: cut(&given.shared.originals),
            currents: cut(&given.shared.currents),
            touches: given.shared.touches[points..points + count].to_vec(),
            ends: given.shared.ends[ends..ends + contours].to_vec(),
        });
        points += count;
        ends += contours;
    }
    parts
}

#[test]
fn one_call_equals_one_by_one() {
    let mut random = Random::new(5);
    let mut outlines = 0;
    for (_, profile) in PROFILES {
        for _ in 0..1_000 {
            let Some(Job::Catalogue(mut given)) = job_of(&line(17, profile, &mut random)) else {
                continue;
            };
            let before = given.clone();
            if calls::align_catalogue(&mut given).is_err() {
                assert_eq!(given, before);
                continue;
            }
            let (mut currents, mut answers) = (Vec::new(), Vec::new());
            for mut part in parts(&before) {
                let answer = calls::align_weak_points(&mut part);
                answers.push(answer.map_or_else(|refusal| refusal.0 as u8, |()| 0));
                currents.extend(part.currents);
                outlines += 1;
            }
            assert_eq!((given.shared.currents, given.answers), (currents, answers));
        }
    }
    assert!(outlines > 10_000);
}
