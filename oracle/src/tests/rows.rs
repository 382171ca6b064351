//! The rows that show both sides.

use super::{done, edge, keep, linked, positions, segment};
use crate::{
    calls,
    job::{
        Building, CjkStem, Dimension, Direction, Edge, Points, ScriptGroup, Segment, Stems, Table,
    },
    refusals::Refusal,
};

/// The currents after aligning points given as (original, current, touched), one contour.
fn weak(points: &[(i32, i32, bool)]) -> Vec<i32> {
    let mut points = Points {
        originals: points.iter().map(|p| p.0).collect(),
        currents: points.iter().map(|p| p.1).collect(),
        touches: points.iter().map(|p| p.2.into()).collect(),
        ends: vec![points.len() as u16 - 1],
    };
    assert_eq!(calls::align_weak_points(&mut points), Ok(()));
    points.currents
}

/// Currents between references 0 to 0 and another.
fn between(reference: (i32, i32), originals: [i32; 2]) -> Vec<i32> {
    let [a, b] = originals;
    let (original, current) = reference;
    weak(&[
        (0, 0, true),
        (a, 7, false),
        (b, 8, false),
        (original, current, true),
    ])[1..3]
        .to_vec()
}

#[test]
fn weak_points_interpolate_and_shift() {
    assert_eq!(between((3, 64), [1, 2]), [21, 43]);
    assert_eq!(between((3, -64), [1, 2]), [-21, -43]);
    assert_eq!(between((2, 1), [1, 1]), [1, 1]);
    assert_eq!(between((2, -1), [1, 1]), [-1, -1]);
    assert_eq!(between((3, 64), [-5, 10]), [-5, 71]);
}

#[test]
fn one_touched_point_shifts_the_others() {
    let points = |current| weak(&[(0, current, true), (10, 99, false), (20, 20, false)]);
    assert_eq!(points(0), [0, 99, 20]);
    assert_eq!(points(5), [5, 15, 25]);
}

#[test]
fn coordinate_limit() {
    for (coordinate, answer) in [(65_535, Ok(())), (65_536, Err(Refusal(4)))] {
        let mut points = Points {
            originals: vec![coordinate],
            currents: vec![0],
            touches: vec![0],
            ends: vec![0],
        };
        assert_eq!(calls::align_weak_points(&mut points), answer);
    }
}

/// Positions after the Latin stem pass, behind an anchor at 0.
fn latin_stem(first: i32, second: i32) -> Vec<i32> {
    let mut edges = Table::of(vec![done(edge(0)), linked(first, 2), linked(second, 1)]);
    let given = Stems {
        dim: Dimension::Vertical,
        group: ScriptGroup::Default,
        stem_adjust: false,
        top_to_bottom: false,
        anchor: Some(0),
        rule: keep(),
    };
    let result = calls::align_stem_edges(&mut edges, &given);
    assert_eq!(result, Ok((0, Some(0))));
    positions(&edges)[1..].to_vec()
}

#[test]
fn latin_stems() {
    assert_eq!(latin_stem(100, 160), [130, 190]);
    assert_eq!(latin_stem(87, 157), [119, 189]);
}

#[test]
fn cjk_stems() {
    for (stem_adjust, expected) in [(false, [26, 66]), (true, [24, 64])] {
        let mut edges = Table::of(vec![edge(40), edge(80)]);
        let given = CjkStem {
            dim: Dimension::Vertical,
            stem_adjust,
            rule: keep(),
            edge: 0,
            edge2: 1,
            delta: 0,
        };
        assert!(calls::hint_normal_stem_cjk(&mut edges, &given).is_ok());
        assert_eq!(positions(&edges), expected);
    }
}

/// How many edges two segments so far apart make.
fn edges_of(group: ScriptGroup, distance: i16) -> usize {
    let upward = |pos| Segment {
        dir: Direction::Up,
        ..segment(pos)
    };
    let mut segments = Table::of(vec![upward(0), upward(distance)]);
    let mut edges = Table::of(Vec::new());
    let given = Building {
        dim: Dimension::Vertical,
        major: Direction::Up,
        group,
        top_to_bottom: false,
        scale: 32_768,
        distance: 21,
        length: 0,
        width: 0,
    };
    let result = calls::compute_edges(&mut segments, &mut edges, &given);
    assert_eq!(result, Ok(()));
    edges.count
}

#[test]
fn distance_threshold() {
    assert_eq!(edges_of(ScriptGroup::Default, 21), 1);
    assert_eq!(edges_of(ScriptGroup::Default, 22), 2);
    assert_eq!(edges_of(ScriptGroup::Cjk, 20), 1);
    assert_eq!(edges_of(ScriptGroup::Cjk, 21), 2);
}

/// The lowercase m of the row, with this `opos` of edge 4.
fn lowercase_m(opos: i32) -> Vec<i32> {
    let at = |opos, pos| Edge { pos, ..edge(opos) };
    let stems = vec![
        at(0, 0),
        edge(1),
        at(100, 128),
        edge(2),
        at(opos, 270),
        edge(3),
    ];
    let mut edges = Table::of(stems);
    let result = calls::hint_lowercase_m(&mut edges, ScriptGroup::Default);
    assert_eq!(result, Ok(()));
    positions(&edges)
}

#[test]
fn lowercase_m_keeps_symmetry() {
    assert_eq!(lowercase_m(207), [0, 1, 128, 2, 256, 3]);
    assert_eq!(lowercase_m(208), [0, 1, 128, 2, 270, 3]);
}

#[test]
fn linking_a_pair() {
    let wide = |pos, dir| Segment {
        dir,
        max_coord: 200,
        ..segment(pos)
    };
    let mut segments = Table::of(vec![wide(0, Direction::Up), wide(100, Direction::Down)]);
    let result = calls::link_segments_cjk(&mut segments, Direction::Up, 1_000, 65_536);
    assert_eq!(result, Ok(()));
    for (ix, segment) in segments.items.iter().enumerate() {
        assert_eq!(segment.link_ix, Some(1 - ix as u16));
        assert_eq!((segment.score, segment.len), (100, 200));
    }
}

#[test]
fn bound_moves_beyond_sixteen() {
    for (link, moved) in [(16, 0), (17, 10)] {
        let first = Edge {
            pos: 10,
            ..edge(10)
        };
        let mut edges = Table::of(vec![first, linked(0, 2), edge(10 + link)]);
        assert_eq!(calls::adjust_link(&mut edges, 1, false, false), Ok(()));
        assert_eq!(positions(&edges)[1], moved);
    }
}
