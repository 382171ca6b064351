//! Worked paths of request #101.

use super::{decoded, walk};
use crate::{
    answer::answer_line,
    calls,
    generate::patterns,
    job::{Job, Walk},
    path::{
        self, Place,
        Step::{self, Close, Curve, Line, Move},
    },
    plain,
    refusals::Refusal,
    text,
    words::encode,
};

/// A place, from 128ths of a pixel.
fn at(x: i32, y: i32) -> Place {
    Place {
        x: x as f32 / 128.0,
        y: y as f32 / 128.0,
    }
}

/// The path of one contour through (0, 0), (2, 10), (5, 21), (11, 42), as many as there are marks.
fn one(marks: &[u8]) -> Vec<Step> {
    let (xs, ys) = ([0, 2, 5, 11], [0, 10, 21, 42]);
    let count = marks.len();
    let walk = walk(&xs[..count], &ys[..count], marks, &[count as u16 - 1]);
    calls::path(&walk).expect("these are accepted")
}

#[test]
fn lone_points() {
    assert_eq!(one(&[1]), [Move(at(0, 0)), Close]);
    let curve = Curve(at(0, 0), at(0, 0));
    assert_eq!(one(&[0]), [Move(at(0, 0)), curve, Close]);
}

#[test]
fn a_straight_way_back_is_left_to_the_close() {
    let lines = [Line(at(4, 20)), Line(at(10, 42))];
    assert_eq!(
        one(&[1, 2, 255]),
        [Move(at(0, 0)), lines[0], lines[1], Close]
    );
    let curve = Curve(at(4, 20), at(10, 42));
    assert_eq!(one(&[1, 0, 1]), [Move(at(0, 0)), curve, Close]);
}

#[test]
fn a_trailing_off_curve_point_curves_to_the_start() {
    let curve = Curve(at(10, 42), at(0, 0));
    assert_eq!(
        one(&[1, 1, 0]),
        [Move(at(0, 0)), Line(at(4, 20)), curve, Close]
    );
    // The walk of a contour that starts behind its first point ends in front of the start.
    let curve = Curve(at(0, 0), at(4, 20));
    assert_eq!(
        one(&[0, 1, 1]),
        [Move(at(4, 20)), Line(at(10, 42)), curve, Close]
    );
}

#[test]
fn implied_points_are_halfway_also_at_the_seam() {
    let steps = [
        Move(at(4, 20)),
        Curve(at(10, 42), at(16, 63)),
        Curve(at(22, 84), at(11, 42)),
        Curve(at(0, 0), at(4, 20)),
        Close,
    ];
    assert_eq!(one(&[0, 1, 0, 0]), steps);
}

#[test]
fn a_contour_all_off_the_curve_starts_halfway() {
    let steps = [
        Move(at(5, 21)),
        Curve(at(0, 0), at(2, 10)),
        Curve(at(4, 20), at(7, 31)),
        Curve(at(10, 42), at(5, 21)),
        Close,
    ];
    assert_eq!(one(&[0, 0, 0]), steps);
    let steps = [
        Move(at(2, 10)),
        Curve(at(0, 0), at(2, 10)),
        Curve(at(4, 20), at(2, 10)),
        Close,
    ];
    assert_eq!(one(&[0, 0]), steps);
}

#[test]
fn contours_follow_each_other_and_the_rest_gives_none() {
    let given = walk(&[1, 2, 3, 4], &[5, 6, 7, 8], &[1, 1, 0, 1], &[1, 2]);
    let lone = at(6, 14);
    let steps = [
        Move(at(2, 10)),
        Line(at(4, 12)),
        Close,
        Move(lone),
        Curve(lone, lone),
        Close,
    ];
    assert_eq!(calls::path(&given), Ok(steps.to_vec()));
    let none = walk(&[1], &[2], &[1], &[]);
    assert_eq!(calls::path(&none), Ok(Vec::new()));
    assert_eq!(calls::path_step(&none, 0), Ok(None));
}

#[test]
fn places_are_exact_at_the_limit_and_zero_has_no_sign() {
    let most = 196_605;
    let given = walk(&[most, most - 1, -most], &[-5, 5, 0], &[0, 0, 0], &[2]);
    let steps = calls::path(&given).expect("at the limit");
    let Step::Curve(control, end) = steps[1] else {
        panic!("a curve")
    };
    assert_eq!(f64::from(control.x), 3_071.953_125);
    assert_eq!(f64::from(end.x), 3_071.945_312_5);
    assert_eq!(end.y.to_bits(), 0);
    assert_eq!(
        steps[0],
        Move(Place {
            x: 0.0,
            y: -5.0 / 128.0
        })
    );
}

#[test]
fn the_path_refuses_in_order() {
    let mut given = walk(&[0, 0], &[196_606], &[1, 1], &[2, 0]);
    assert_eq!(calls::path(&given), Err(Refusal(1)));
    assert_eq!(calls::path_step(&given, u32::MAX), Err(Refusal(1)));
    given.ys.push(-196_606);
    assert_eq!(calls::path(&given), Err(Refusal(3)));
    given.ends = vec![0];
    assert_eq!(calls::path(&given), Err(Refusal(4)));
    given.ys[0] = 196_605;
    // A point of no contour is tested too.
    assert_eq!(calls::path(&given), Err(Refusal(4)));
    given.ys[1] = -196_605;
    assert!(calls::path(&given).is_ok());
}

#[test]
fn points_up_to_4096() {
    let lone = |count: usize| Walk {
        xs: vec![7; count],
        ys: vec![0; count],
        marks: vec![0; count],
        ends: (0..count as u16).collect(),
    };
    assert_eq!(calls::path(&lone(4_097)), Err(Refusal(1)));
    let line = text::write(&encode(&Job::Path(lone(4_096))).values);
    let words = decoded(&line);
    assert_eq!((words.len(), words[0], words[1]), (36_866, 0, 12_288));
}

#[test]
fn cursors_name_steps() {
    let answer = |cursor: u32| {
        let given = walk(&[64], &[-64], &[0], &[0]);
        let line = text::write(&encode(&Job::PathStep(given, cursor)).values);
        answer_line(line.as_bytes())
    };
    let (x, y) = ("3F800000", "BF800000");
    let none = "0000000000000000";
    assert_eq!(answer(0), format!("0000000000000001{x}{y}{none}00000001"));
    assert_eq!(answer(1), format!("0000000000000003{x}{y}{x}{y}00000002"));
    assert_eq!(answer(2), format!("0000000000000004{none}{none}00000003"));
    assert_eq!(answer(3), format!("0000000000000000{none}{none}00000003"));
    let last = answer(i32::MAX as u32);
    assert_eq!(last, format!("0000000000000000{none}{none}7FFFFFFF"));
}

#[test]
fn a_refused_outline_is_refused_whatever_the_cursor() {
    let given = walk(&[64], &[-64], &[], &[0]);
    let line = text::write(&encode(&Job::PathStep(given, 9)).values);
    let words = decoded(&line);
    assert_eq!(words, [1, 0, 0, 0, 0, 0, 9]);
}

#[test]
fn a_negative_cursor_or_a_long_list_is_not_a_job() {
    let step = |cursor| encode(&Job::PathStep(walk(&[], &[], &[], &[]), cursor)).values;
    assert_eq!(decoded(&text::write(&step(0))), [0, 0, 0, 0, 0, 0, 0]);
    assert_eq!(decoded(&text::write(&step(u32::MAX))), [-1]);
    let long = |count| walk(&vec![0; count], &[], &[], &[]);
    let line = |count| text::write(&encode(&Job::Path(long(count))).values);
    assert_eq!(decoded(&line(8_191)), [1, 0]);
    assert_eq!(decoded(&line(8_192)), [-1]);
}

#[test]
fn the_plain_loop_makes_the_same_path() {
    let agreed = patterns::jobs(false, &mut |job| {
        let Job::Path(walk) = job else {
            return Err(format!("{job:?} is no whole path"));
        };
        let mut steps = Vec::new();
        plain::steps(walk, &mut steps);
        assert_eq!(steps, path::steps(walk));
        Ok(())
    });
    assert_eq!(agreed, Ok(()));
}
