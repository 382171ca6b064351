//! Stems that vanish and merge, on axes written by hand.

use crate::{
    chain::{Fitted, FittedAxis, Placing},
    findings::{judge, What},
};
use khsaemudol::{path, Dimension, Edge, LostGaps, Mark, Outline, PathStep, Segment};

/// An axis of points that were and are at these places; an edge for each stem's two sides, given by the points of each.
fn axis(
    dimension: Dimension,
    before: &[i32],
    after: &[i32],
    sides: &[&[usize]],
    placed: bool,
) -> FittedAxis {
    let mark = if placed { Mark::Stem } else { Mark::Nothing };
    let edge = |(number, points): (usize, &&[usize])| {
        let (opos, pos) = (before[points[0]], after[points[0]]);
        Edge::default()
            .with_opos(opos)
            .with_pos(pos)
            .with_mark(mark)
            .with_link(Some(number as u16 ^ 1))
    };
    FittedAxis {
        dimension,
        segments: (0..sides.len())
            .map(|side| Segment::default().with_edge(Some(side as u16)))
            .collect(),
        edges: sides.iter().enumerate().map(edge).collect(),
        guard: LostGaps::default(),
        before: before.to_vec(),
        after: after.to_vec(),
        placing: vec![Placing::Edge; before.len()],
        segment_of: (0..before.len())
            .map(|point| sides.iter().position(|side| side.contains(&point)))
            .collect(),
        ends: vec![before.len() as u16 - 1],
    }
}

/// A glyph of one contour of straight lines.
fn glyph(widths: FittedAxis, heights: FittedAxis) -> Fitted {
    let steps = |xs: &[i32], ys: &[i32]| -> Vec<PathStep> {
        let ends = [xs.len() as u16 - 1];
        let outline = Outline {
            xs,
            ys,
            marks: &vec![1; xs.len()],
            ends: &ends,
        };
        let (mut kinds, mut places) = (
            vec![0; outline.most_steps()],
            vec![0.0; 4 * outline.most_steps()],
        );
        path(&outline, &mut kinds, &mut places)
            .expect("a sound outline")
            .collect()
    };
    Fitted {
        before: steps(&widths.before, &heights.before),
        after: steps(&widths.after, &heights.after),
        heights,
        widths,
    }
}

/// The heights of a bow with two legs; nothing moves them.
const LEGS: [i32; 8] = [0, 384, 384, 0, 0, 320, 320, 0];

/// Two legs, 40 units apart before, and so far after.
fn legs(gap: i32) -> Fitted {
    let xs = |gap: i32| [0, 0, 128 + gap, 128 + gap, 64 + gap, 64 + gap, 64, 64];
    let sides: [&[usize]; 4] = [&[0, 1], &[6, 7], &[4, 5], &[2, 3]];
    glyph(
        axis(Dimension::Horizontal, &xs(40), &xs(gap), &sides, true),
        axis(Dimension::Vertical, &LEGS, &LEGS, &[], true),
    )
}

fn found(fitted: &Fitted) -> Vec<What> {
    judge(fitted)
        .findings
        .into_iter()
        .map(|finding| finding.what)
        .collect()
}

#[test]
fn legs_stay_apart_or_merge() {
    assert_eq!(found(&legs(64)), []);
    assert_eq!(
        found(&legs(0)),
        [What::StemsMerge(Dimension::Horizontal, [1, 2])]
    );
}

/// An L whose foot is so high, and stands so far above the ground.
fn foot(height: i32, above: i32, placed: bool) -> Fitted {
    let xs = [0, 0, 64, 64, 384, 384];
    let ys = |foot: i32, above: i32| [above, 576, 576, above + foot, above + foot, above];
    let sides: [&[usize]; 2] = [&[0, 5], &[3, 4]];
    glyph(
        axis(Dimension::Horizontal, &xs, &xs, &[], true),
        axis(
            Dimension::Vertical,
            &ys(60, 0),
            &ys(height, above),
            &sides,
            placed,
        ),
    )
}

#[test]
fn a_foot_stays_or_vanishes() {
    assert_eq!(found(&foot(64, 0, true)), []);
    assert_eq!(
        found(&foot(40, 40, true)),
        [What::StemVanishes(Dimension::Vertical, [0, 1])]
    );
}

#[test]
fn unplaced_edges_are_told_apart() {
    let unplaced = |placed: bool| judge(&foot(40, 40, placed)).findings.remove(0).unplaced;
    assert_eq!(unplaced(true), []);
    assert_eq!(
        unplaced(false),
        [(Dimension::Vertical, 0), (Dimension::Vertical, 1)]
    );
}
