//! Fill, pieces and holes on worked shapes, and what pixels make of them.

use super::{contour, hole, rectangle};
use crate::{
    fill::fill,
    findings::{changes, Shape, What, TIMES},
    pieces::Parts,
};
use khsaemudol::{PathStep, PixelPoint};

/// Pieces and holes of a path at so many times its size.
fn count(path: &[PathStep], times: i32) -> (usize, usize) {
    let count = Parts::of(&fill(path, times)).count();
    (count.pieces, count.holes)
}

/// What pixels make of a path.
fn found(path: &[PathStep]) -> Vec<What> {
    let found = changes(&Shape::of_outline(path), &Shape::of_pixels(path));
    found.into_iter().map(|(what, _)| what).collect()
}

/// The pixels of a path, from the top, without the white around them.
fn drawn(path: &[PathStep]) -> Vec<String> {
    let bitmap = fill(path, 1);
    let rows = (bitmap.bottom + 1..bitmap.bottom + bitmap.height as i32 - 1).rev();
    let columns = bitmap.left + 1..bitmap.left + bitmap.width as i32 - 1;
    rows.map(|y| {
        columns
            .clone()
            .map(|x| if bitmap.is_black(x, y) { '#' } else { '.' })
            .collect()
    })
    .collect()
}

#[test]
fn a_square_is_its_pixels() {
    assert_eq!(drawn(&rectangle((0.0, 0.0), (2.0, 1.0))), ["##"]);
    // a pixel is black where its centre is: the left and the lower side belong to a shape, the right and the upper one not
    assert_eq!(drawn(&rectangle((0.5, 0.5), (2.5, 1.5))), ["...", "##."]);
    assert_eq!(drawn(&rectangle((0.6, 0.6), (1.4, 1.4))), ["..", ".."]);
}

#[test]
fn a_ring_has_a_hole() {
    let ring = [
        rectangle((0.0, 0.0), (4.0, 4.0)),
        hole((1.0, 1.0), (3.0, 3.0)),
    ]
    .concat();
    assert_eq!(drawn(&ring), ["####", "#..#", "#..#", "####"]);
    assert_eq!(count(&ring, 1), (1, 1));
    assert_eq!(count(&ring, TIMES), (1, 1));
    assert_eq!(found(&ring), []);
    // a contour inside that goes the same way is no hole: the fill is nonzero
    let full = [
        rectangle((0.0, 0.0), (4.0, 4.0)),
        rectangle((1.0, 1.0), (3.0, 3.0)),
    ]
    .concat();
    assert_eq!(count(&full, 1), (1, 0));
    // two that overlap are one piece, black in both
    let overlap = [
        rectangle((0.0, 0.0), (3.0, 3.0)),
        rectangle((2.0, 2.0), (5.0, 5.0)),
    ]
    .concat();
    assert_eq!(count(&overlap, 1), (1, 0));
}

#[test]
fn a_ring_closes_and_opens() {
    let closed = [
        rectangle((0.0, 0.0), (3.0, 3.0)),
        hole((1.1, 1.6), (1.9, 2.4)),
    ]
    .concat();
    assert_eq!(found(&closed), [What::CounterCloses]);
    let open = [
        rectangle((0.6, 0.0), (4.0, 4.0)),
        hole((1.0, 1.0), (3.0, 3.0)),
    ]
    .concat();
    assert_eq!(found(&open), [What::CounterOpens]);
}

/// Two counters, one above the other, the bar between them so high.
fn eight(bar: (f32, f32)) -> Vec<PathStep> {
    [
        rectangle((0.0, 0.0), (5.0, 9.0)),
        hole((1.0, 1.0), (4.0, bar.0)),
        hole((1.0, bar.1), (4.0, 8.0)),
    ]
    .concat()
}

#[test]
fn an_eight_has_two_holes() {
    assert_eq!(count(&eight((4.0, 5.0)), 1), (1, 2));
    assert_eq!(count(&eight((4.0, 5.0)), TIMES), (1, 2));
    assert_eq!(found(&eight((4.0, 5.0))), []);
    // a bar between two rows of centres is lost, and one counter is left
    assert_eq!(count(&eight((4.6, 5.4)), 1), (1, 1));
    assert_eq!(found(&eight((4.6, 5.4))), [What::CountersJoin]);
}

/// A 3: an 8 whose counters are open to the left, each by a gap so high.
fn three(low: (f32, f32), high: (f32, f32)) -> Vec<PathStep> {
    contour(&[
        (0.0, 0.0),
        (0.0, low.0),
        (1.0, low.0),
        (1.0, 1.0),
        (4.0, 1.0),
        (4.0, 4.0),
        (1.0, 4.0),
        (1.0, low.1),
        (0.0, low.1),
        (0.0, high.0),
        (1.0, high.0),
        (1.0, 5.0),
        (4.0, 5.0),
        (4.0, 8.0),
        (1.0, 8.0),
        (1.0, high.1),
        (0.0, high.1),
        (0.0, 9.0),
        (5.0, 9.0),
        (5.0, 0.0),
    ])
}

#[test]
fn a_three_reads_as_an_eight() {
    let open = three((2.0, 3.0), (6.0, 7.0));
    assert_eq!((count(&open, TIMES), count(&open, 1)), ((1, 0), (1, 0)));
    assert_eq!(found(&open), []);
    // the gaps are between two rows of centres
    let closed = three((2.6, 3.4), (6.6, 7.4));
    assert_eq!((count(&closed, TIMES), count(&closed, 1)), ((1, 0), (1, 2)));
    assert_eq!(found(&closed), [What::GapCloses, What::GapCloses]);
}

#[test]
fn touching_squares_are_one_piece() {
    let squares = |at: (f32, f32)| {
        [
            rectangle((0.0, 0.0), (2.0, 2.0)),
            rectangle(at, (at.0 + 2.0, at.1 + 2.0)),
        ]
        .concat()
    };
    assert_eq!(count(&squares((2.0, 0.0)), 1), (1, 0), "by a side");
    assert_eq!(count(&squares((2.0, 2.0)), 1), (1, 0), "by a corner");
    assert_eq!(count(&squares((3.0, 0.0)), 1), (2, 0), "apart");
    // a gap without a column of centres is closed by pixels
    let near = [
        rectangle((0.0, 0.0), (1.6, 2.0)),
        rectangle((2.4, 0.0), (4.0, 2.0)),
    ]
    .concat();
    assert_eq!((count(&near, TIMES), count(&near, 1)), ((2, 0), (1, 0)));
    assert_eq!(found(&near), [What::PiecesMerge]);
}

#[test]
fn white_hangs_together_by_sides_alone() {
    // four squares around a white pixel touch by their corners, and enclose it
    let squares = [(1.0, 0.0), (0.0, 1.0), (2.0, 1.0), (1.0, 2.0)];
    let ring: Vec<PathStep> = squares
        .iter()
        .flat_map(|at| rectangle(*at, (at.0 + 1.0, at.1 + 1.0)))
        .collect();
    assert_eq!(drawn(&ring), [".#.", "#.#", ".#."]);
    assert_eq!(count(&ring, 1), (1, 1));
}

#[test]
fn thin_pieces_vanish_and_break() {
    let line = rectangle((0.0, 0.6), (5.0, 1.4));
    let thin = [rectangle((0.0, 2.0), (5.0, 3.0)), line].concat();
    assert_eq!(found(&thin), [What::PieceVanishes]);
    // a hair that meets the centre of a pixel, and none of the smaller pixels beside it
    assert_eq!(
        found(&rectangle((1.49, 0.0), (1.51, 3.0))),
        [What::PieceAppears]
    );
    // a steep stroke that is narrower than a pixel misses the centres of some rows
    let stroke = contour(&[(0.0, 0.0), (2.0, 6.0), (2.5, 6.0), (0.5, 0.0)]);
    assert_eq!(
        (count(&stroke, TIMES).0, found(&stroke)),
        (1, vec![What::PieceBreaks])
    );
}

#[test]
fn a_pinched_counter_is_divided() {
    let waist = contour(&[
        (1.0, 1.0),
        (4.0, 1.0),
        (4.0, 3.0),
        (2.7, 4.5),
        (4.0, 6.0),
        (4.0, 8.0),
        (1.0, 8.0),
        (1.0, 6.0),
        (2.3, 4.5),
        (1.0, 3.0),
    ]);
    // the waist is around a centre: a hair to the right of it nothing is white there
    let shift = |step: &PathStep| match step {
        PathStep::Move(to) => PathStep::Move(PixelPoint {
            x: to.x + 0.4,
            y: to.y,
        }),
        PathStep::Line(to) => PathStep::Line(PixelPoint {
            x: to.x + 0.4,
            y: to.y,
        }),
        other => *other,
    };
    let shifted: Vec<PathStep> = waist.iter().map(shift).collect();
    assert_eq!(
        found(&[rectangle((0.0, 0.0), (5.0, 9.0)), waist].concat()),
        []
    );
    assert_eq!(
        found(&[rectangle((0.0, 0.0), (5.0, 9.0)), shifted].concat()),
        [What::CounterDivides]
    );
}

#[test]
fn the_end_of_a_notch_is_no_hole() {
    let notch = contour(&[
        (0.0, 0.0),
        (0.0, 4.0),
        (1.0, 4.0),
        (3.0, 1.0),
        (1.5, 4.0),
        (5.0, 4.0),
        (5.0, 0.0),
    ]);
    // where it is narrow it falls apart at any size
    assert_eq!((count(&notch, TIMES), count(&notch, 1)), ((1, 3), (1, 0)));
    assert_eq!(found(&notch), []);
}

#[test]
fn curves_are_filled() {
    // below the parabola from 0 by 2 4 to 4 lie 2/3 of 4 times 2 pixels
    let place = |x, y| PixelPoint { x, y };
    let arc = [
        PathStep::Move(place(0.0, 0.0)),
        PathStep::Curve(place(2.0, 4.0), place(4.0, 0.0)),
        PathStep::Close,
    ];
    let small = fill(&arc, TIMES)
        .black
        .iter()
        .filter(|black| **black)
        .count();
    let area = small as f64 / f64::from(TIMES * TIMES);
    assert!((area - 16.0 / 3.0).abs() < 0.05, "{area}");
    assert_eq!(drawn(&arc), [".##.", "####"]);
}

#[test]
fn sixteen_lines_make_a_curve() {
    // of thirty-two lines the pixel of column 2 and row 2 would be black
    let place = |x, y| PixelPoint { x, y };
    let bent = [
        PathStep::Move(place(0.0, 0.0)),
        PathStep::Curve(place(6.0, 1.25), place(0.0, 4.0)),
        PathStep::Close,
    ];
    assert_eq!(drawn(&bent), ["#..", "##.", "###", "##."]);
}

#[test]
fn nothing_has_no_pieces() {
    assert_eq!(count(&[], 1), (0, 0));
    assert_eq!(found(&[]), []);
}
