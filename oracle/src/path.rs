//! The path for the rasteriser, written from request #101 alone: the given Rust has no part of it.
//!
//! A contour is turned into its ring, in which implied points stand between the given ones; the steps are then read off.

use crate::job::Walk;

/// A place in pixels.
#[derive(Copy, Clone, PartialEq, Debug)]
pub struct Place {
    pub x: f32,
    pub y: f32,
}

/// A step of the path; a curve has its control point, then its end.
#[derive(Copy, Clone, PartialEq, Debug)]
pub enum Step {
    Move(Place),
    Line(Place),
    Curve(Place, Place),
    Close,
}

impl Step {
    /// The number of its kind.
    pub fn kind(&self) -> i32 {
        match self {
            Step::Move(..) => 1,
            Step::Line(..) => 2,
            Step::Curve(..) => 3,
            Step::Close => 4,
        }
    }

    /// Its places, in order.
    pub fn places(&self) -> Vec<Place> {
        match *self {
            Step::Move(place) | Step::Line(place) => vec![place],
            Step::Curve(control, end) => vec![control, end],
            Step::Close => Vec::new(),
        }
    }
}

/// A point of a ring, in halves of a unit: there every implied point is whole.
#[derive(Copy, Clone)]
struct Point {
    x: i32,
    y: i32,
    on: bool,
}

/// Every step of an accepted outline, one contour behind the other.
pub fn steps(walk: &Walk) -> Vec<Step> {
    let mut steps = Vec::new();
    let mut first = 0;
    for end in &walk.ends {
        let behind = usize::from(*end) + 1;
        let points: Vec<Point> = (first..behind).map(|ix| point(walk, ix)).collect();
        steps.extend(contour(&ring(&points)));
        first = behind;
    }
    steps
}

/// A given point.
fn point(walk: &Walk, ix: usize) -> Point {
    Point {
        x: 2 * walk.xs[ix],
        y: 2 * walk.ys[ix],
        on: walk.marks[ix] != 0,
    }
}

/// The implied point halfway between two.
fn halfway(a: Point, b: Point) -> Point {
    Point {
        x: (a.x + b.x) / 2,
        y: (a.y + b.y) / 2,
        on: true,
    }
}

/// The points once around, from the start to the start again, never two off the curve in a row.
fn ring(points: &[Point]) -> Vec<Point> {
    let start = points.iter().position(|point| point.on);
    let mut around = match start {
        Some(first) => [&points[first..], &points[..first]].concat(),
        None => {
            let middle = halfway(points[points.len() - 1], points[0]);
            [&[middle], points].concat()
        }
    };
    around.push(around[0]);
    let mut ring = vec![around[0]];
    for pair in around.windows(2) {
        if !pair[0].on && !pair[1].on {
            ring.push(halfway(pair[0], pair[1]));
        }
        ring.push(pair[1]);
    }
    ring
}

/// The steps of a ring.
fn contour(ring: &[Point]) -> Vec<Step> {
    let mut steps = vec![Step::Move(place(ring[0]))];
    let mut rest = &ring[1..];
    loop {
        rest = match rest {
            [off, to, rest @ ..] if !off.on => {
                steps.push(Step::Curve(place(*off), place(*to)));
                rest
            }
            [on, rest @ ..] if !rest.is_empty() => {
                steps.push(Step::Line(place(*on)));
                rest
            }
            // A straight way back to the start is left to the close.
            _ => break,
        };
    }
    steps.push(Step::Close);
    steps
}

/// Where a point is, in pixels.
fn place(point: Point) -> Place {
    Place {
        x: pixels(point.x),
        y: pixels(point.y),
    }
}

/// Halves of a unit as pixels, and exactly that.
fn pixels(halves: i32) -> f32 {
    let exact = f64::from(halves) / 128.0;
    let pixels = exact as f32;
    assert_eq!(f64::from(pixels), exact);
    pixels
}
