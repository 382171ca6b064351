//! Dragged points: on the sample label every position is what aligning the whole axis comes to; and the only touched point of a contour.

use super::label::LABEL;
use crate::{
    advance::Advance,
    chain::{fit, steps, Fitted, FittedAxis, Placing},
    drag::{drags, places, Moving},
    label::read,
    size::{at_scale, scale_of},
    specimen::Row,
};
use khsaemudol::{align_weak_points, Dimension, LostGaps};

/// A row for a glyph of these marks and ends.
fn row(on_curve: &[u8], ends: &[u16]) -> Row {
    Row {
        name: String::new(),
        character: None,
        advance: Advance::default(),
        on_curve: on_curve.to_vec(),
        ends: ends.to_vec(),
        cells: vec![],
    }
}

/// Compares what is dragged, at every position, with the axis aligned anew and its path; tells how many positions there are.
fn compare(row: &Row, fitted: &Fitted, axis: &FittedAxis, point: usize, all: &[Moving]) -> usize {
    for (at, by) in all[0].by.iter().enumerate() {
        let mut aligned = axis.after.clone();
        aligned[point] += by / 2;
        align_weak_points(&axis.before, &mut aligned, &axis.touched(), &axis.ends)
            .expect("it is aligned");
        let (xs, ys) = match axis.dimension {
            Dimension::Horizontal => (&aligned, &fitted.heights.after),
            Dimension::Vertical => (&fitted.widths.after, &aligned),
        };
        let path = steps(&row.on_curve, &row.ends, xs, ys).expect("it has a path");
        let mut points = axis.after.clone();
        let mut path_places = places(&fitted.after, axis.dimension);
        for moving in all {
            for point in &moving.points {
                points[*point] += moving.by[at] / 2;
            }
            for place in &moving.places {
                path_places[*place] += moving.by[at] as f32 / 128.0;
            }
        }
        assert_eq!(points, aligned);
        assert_eq!(path_places, places(&path, axis.dimension));
    }
    all[0].by.len()
}

#[test]
fn dragging_in_the_sample_label_is_aligning_anew() {
    let (mut dragged, mut positions) = (0, 0);
    for glyph in read(LABEL).expect("the sample label can be read") {
        let row = row(&glyph.on_curve, &glyph.ends);
        for size in [11, 12, 16, 24] {
            let glyph = at_scale(&glyph, scale_of(size, 1_000)).expect("at this size");
            let Ok(fitted) = fit(&glyph) else {
                continue;
            };
            for (axis, _) in fitted.axes() {
                for (point, placing) in axis.placing.iter().enumerate() {
                    let all = drags(&row, &fitted, axis, point);
                    assert_eq!(all.is_some(), placing.is_touched());
                    if let Some(all) = all {
                        dragged += 1;
                        positions += compare(&row, &fitted, axis, point, &all);
                    }
                }
            }
        }
    }
    assert!(dragged > 1_000 && positions > 17 * dragged);
}

/// An axis of three points on a contour, the first of which is touched.
fn one_touched(dimension: Dimension) -> FittedAxis {
    FittedAxis {
        dimension,
        segments: vec![],
        edges: vec![],
        guard: LostGaps::default(),
        before: vec![0, 64, 128],
        after: vec![20, 84, 148],
        placing: vec![Placing::Edge, Placing::Weak, Placing::Weak],
        segment_of: vec![None; 3],
        ends: vec![2],
    }
}

#[test]
fn an_only_touched_point_on_its_original_moves_nothing() {
    let row = row(&[1; 3], &[2]);
    let (heights, widths) = (
        one_touched(Dimension::Vertical),
        one_touched(Dimension::Horizontal),
    );
    let path = steps(&row.on_curve, &row.ends, &widths.after, &heights.after).expect("a path");
    let fitted = Fitted {
        heights,
        widths,
        before: vec![],
        after: path,
    };
    let all = drags(&row, &fitted, &fitted.heights, 0).expect("it is touched");
    let [itself, others] = &all[..] else {
        panic!("the others do not move alike: {all:?}");
    };
    assert_eq!(
        (&itself.points[..], &others.points[..]),
        (&[0][..], &[1, 2][..])
    );
    for (by, follows) in itself.by.iter().zip(&others.by) {
        assert_eq!(*follows, if *by == -40 { 0 } else { *by });
    }
    assert!(itself.by.contains(&-40));
}
