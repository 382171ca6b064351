//! Worked shapes, pixels, stems, the sample label, its points dragged, lines of text, and what changed since another label.

mod advance;
mod drag;
mod label;
mod pixels;
mod shapes;
mod since;
mod stems;

use khsaemudol::{PathStep, PixelPoint};

/// The steps of a contour of straight lines.
fn contour(places: &[(f32, f32)]) -> Vec<PathStep> {
    let place = |(x, y): &(f32, f32)| PixelPoint { x: *x, y: *y };
    let (first, others) = places.split_first().expect("a contour has a point");
    let mut steps = vec![PathStep::Move(place(first))];
    steps.extend(others.iter().map(|to| PathStep::Line(place(to))));
    steps.push(PathStep::Close);
    steps
}

/// A rectangle from a lower left to an upper right corner, clockwise.
fn rectangle((left, bottom): (f32, f32), (right, top): (f32, f32)) -> Vec<PathStep> {
    contour(&[(left, bottom), (left, top), (right, top), (right, bottom)])
}

/// A rectangle the other way round: a hole in one that goes clockwise.
fn hole((left, bottom): (f32, f32), (right, top): (f32, f32)) -> Vec<PathStep> {
    contour(&[(left, bottom), (right, bottom), (right, top), (left, top)])
}
