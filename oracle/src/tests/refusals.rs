//! The refusals: their order, their limits, and that they write nothing.

use super::{edge, keep, linked, segment};
use crate::{
    calls,
    job::{
        Building, CjkStem, Dimension, Direction, Edge, Points, ScriptGroup, Segment, Table,
        WidthRule,
    },
    refusals::Refusal,
};

/// What building is told in these tests.
const GIVEN: Building = Building {
    dim: Dimension::Vertical,
    major: Direction::Up,
    group: ScriptGroup::Default,
    top_to_bottom: false,
    scale: 65_536,
    distance: 3,
    length: 0,
    width: 0,
};

/// Building on segments as far apart as an edge each needs.
fn build(count: i16) -> (Result<(), Refusal>, Table<Segment>, Table<Edge>) {
    let upward = |ix: i16| Segment {
        dir: Direction::Up,
        edge_ix: Some(9),
        edge_next_ix: Some(600),
        ..segment(ix * 10)
    };
    let mut segments = Table::of((0..count).map(upward).collect());
    let mut edges = Table::of(vec![edge(i32::MAX)]);
    let result = calls::compute_edges(&mut segments, &mut edges, &GIVEN);
    (result, segments, edges)
}

#[test]
fn the_table_holds_128_edges() {
    let (result, segments, edges) = build(128);
    assert_eq!((result, edges.count), (Ok(()), 128));
    assert!(segments
        .items
        .iter()
        .zip(0..)
        .all(|(s, ix)| s.edge_ix == Some(ix)));
}

#[test]
fn edge_129_is_refused_and_nothing_written() {
    let (result, segments, edges) = build(129);
    assert_eq!(result, Err(Refusal(5)));
    assert_eq!(edges, Table::of(vec![edge(i32::MAX)]));
    assert!(segments.items.iter().all(|s| s.edge_next_ix == Some(600)));
}

#[test]
fn building_refuses_in_order() {
    let mut faulty = segment(32_767);
    faulty.link_ix = Some(600);
    faulty.score = -1;
    let mut segments = Table {
        count: 513,
        items: vec![faulty; 512],
    };
    let mut edges = Table::of(Vec::new());
    let mut given = Building { scale: 0, ..GIVEN };
    let mut answers = Vec::new();
    for mend in 0..6 {
        match mend {
            1 => segments = Table::of(vec![faulty]),
            2 => given.scale = 131_076,
            3 => segments.items[0].link_ix = Some(0),
            4 => segments.items[0].score = 0,
            5 => segments.items[0].pos = 32_766,
            _ => {}
        }
        let result = calls::compute_edges(&mut segments, &mut edges, &given);
        answers.push(result.map_or_else(|refusal| refusal.0, |()| 0));
    }
    assert_eq!(answers, [1, 2, 3, 4, 4, 0]);
}

#[test]
fn weak_points_refuse_in_order() {
    let mut points = Points {
        originals: vec![70_000],
        currents: vec![0],
        touches: vec![],
        ends: vec![0, 0],
    };
    assert_eq!(calls::align_weak_points(&mut points), Err(Refusal(1)));
    points.touches.push(1);
    assert_eq!(calls::align_weak_points(&mut points), Err(Refusal(3)));
    points.ends.pop();
    assert_eq!(calls::align_weak_points(&mut points), Err(Refusal(4)));
    points.originals[0] = -65_535;
    assert_eq!(calls::align_weak_points(&mut points), Ok(()));
}

#[test]
fn the_cjk_stem_refuses_in_order() {
    let mut edges = Table {
        count: 129,
        items: vec![linked(0, 128); 128],
    };
    let mut given = CjkStem {
        dim: Dimension::Vertical,
        stem_adjust: false,
        rule: WidthRule::Snap(vec![5, 5]),
        edge: 0,
        edge2: 2,
        delta: 16_384,
    };
    let refused = |number, edges: &mut Table<Edge>, given: &CjkStem| {
        let result = calls::hint_normal_stem_cjk(edges, given);
        assert_eq!(result, Err(Refusal(number)));
    };
    refused(1, &mut edges, &given);
    edges = Table::of(vec![linked(0, 1), edge(64)]);
    refused(2, &mut edges, &given);
    given.rule = keep();
    refused(3, &mut edges, &given);
    given.edge2 = 1;
    refused(4, &mut edges, &given);
    given.delta = -16_383;
    assert!(calls::hint_normal_stem_cjk(&mut edges, &given).is_ok());
}

#[test]
fn width_rules() {
    let fitted = |standards: Vec<i32>, stem: i32| {
        let mut edges = Table::of(vec![edge(0), edge(stem)]);
        let rule = WidthRule::Snap(standards);
        calls::align_linked_edge(&mut edges, &rule, 0, 1).map(|()| edges.items[1].pos)
    };
    let answer = |standards| fitted(standards, 120);
    assert_eq!(answer(vec![]), Ok(120));
    assert_eq!(answer(vec![136]), Ok(136));
    assert_eq!(answer(vec![137]), Ok(120));
    assert_eq!(answer(vec![110, 130]), Ok(110));
    assert_eq!(answer((101..=116).collect()), Ok(116));
    assert_eq!(answer((101..=117).collect()), Err(Refusal(2)));
    assert_eq!(answer(vec![0]), Err(Refusal(2)));
    assert_eq!(answer(vec![16_384]), Err(Refusal(2)));
    assert_eq!(answer(vec![9, 9]), Err(Refusal(2)));
    // Snapped first, then a pixel at least, with the width's sign; 0 stays 0.
    assert_eq!(fitted(vec![], 63), Ok(64));
    assert_eq!(fitted(vec![], -1), Ok(-64));
    assert_eq!(fitted(vec![75], 50), Ok(64));
    assert_eq!(fitted(vec![75], 59), Ok(75));
    assert_eq!(fitted(vec![60], 65), Ok(64));
    assert_eq!(fitted(vec![10], 0), Ok(0));
}

#[test]
fn the_m_call_counts_its_edges() {
    let answer = |count| {
        let mut edges = Table::of(vec![edge(0); count]);
        calls::hint_lowercase_m(&mut edges, ScriptGroup::Cjk)
    };
    assert_eq!(answer(6), Ok(()));
    assert_eq!(answer(12), Ok(()));
    assert_eq!(answer(7), Err(Refusal(2)));
    assert_eq!(answer(128), Err(Refusal(2)));
    assert_eq!(answer(129), Err(Refusal(1)));
}
