//! Call 132, what the display shows, written from its issue's sentences alone: the given Rust has no part of it.
//!
//! The whole picture is made. The lines come from the path's steps, the winding around a centre from what lies right of it, and the Euler number from two flood fills.

use crate::{
    job::Walk,
    path::{self, Place, Step},
    refusals::{self, Answer},
};
use std::cmp::Ordering;

/// Places of a curve, from its start on.
const CUTS: i64 = 16;
/// Places are whole numbers of this part of a unit.
const PARTS: i64 = 2 * CUTS * CUTS;
/// The side of a pixel.
const PIXEL: i64 = 64 * PARTS;

/// What is counted.
#[derive(Copy, Clone, PartialEq, Debug, Default)]
pub struct Shown {
    pub black: usize,
    pub euler: i32,
}

/// Call 132: hands back how many pixels are black, and their Euler number.
pub fn count_shown(walk: &Walk, magnify: i32) -> Answer<Shown> {
    refusals::shown(walk, magnify)?;
    let picture = Picture::of(walk, magnify);
    Ok(Shown {
        black: picture.black(),
        euler: picture.pieces() - picture.holes(),
    })
}

/// A place of the outline in parts of a unit.
#[derive(Copy, Clone, PartialEq, Debug)]
struct Spot {
    x: i64,
    y: i64,
}

/// Where a line crosses the middle of a row, as a quotient, and 1 where it goes upward, -1 where downward.
#[derive(Copy, Clone, PartialEq, Debug)]
struct Crossing {
    over: i128,
    under: i128,
    turn: i32,
}

impl Crossing {
    /// The crossing of a line with a height that its lower end is at or below, and its upper end above.
    fn of(from: Spot, to: Spot, height: i64) -> Option<Self> {
        let (low, high, turn) = match from.y.cmp(&to.y) {
            Ordering::Less => (from, to, 1),
            Ordering::Equal => return None,
            Ordering::Greater => (to, from, -1),
        };
        let (past, rise) = (i128::from(height - low.y), i128::from(high.y - low.y));
        (0..rise).contains(&past).then(|| Self {
            over: i128::from(low.x) * rise + i128::from(high.x - low.x) * past,
            under: rise,
            turn,
        })
    }

    /// Which of two is further right.
    fn order(&self, other: &Self) -> Ordering {
        (self.over * other.under).cmp(&(other.over * self.under))
    }

    /// Whether it is right of a place of the row, not at it.
    fn is_right_of(&self, x: i64) -> bool {
        self.over > i128::from(x) * self.under
    }
}

/// All pixels between the bounds of an outline and one around them, row by row from the bottom.
#[derive(Clone, PartialEq, Debug)]
pub struct Picture {
    pub left: i64,
    pub bottom: i64,
    pub width: usize,
    pub pixels: Vec<bool>,
}

impl Picture {
    /// The picture of an accepted outline.
    pub fn of(walk: &Walk, magnify: i32) -> Self {
        let contours = contours(walk, magnify.into());
        let spots = || contours.iter().flatten();
        let (left, width) = bounds(spots().map(|spot| spot.x));
        let (bottom, height) = bounds(spots().map(|spot| spot.y));
        let rows = (0..height as i64).map(|row| middle(bottom + row));
        let pixels = rows
            .flat_map(|y| row(&crossings(&contours, y), left, width))
            .collect();
        Self {
            left,
            bottom,
            width,
            pixels,
        }
    }

    /// How many pixels are black.
    pub fn black(&self) -> usize {
        self.pixels.iter().filter(|black| **black).count()
    }

    /// How many pieces there are: black pixels that hang together by sides and corners.
    pub fn pieces(&self) -> i32 {
        self.areas(true, &[(0, 1), (1, 0), (1, 1), (1, -1)])
    }

    /// How many holes there are: white pixels that hang together by sides, but for those outside.
    pub fn holes(&self) -> i32 {
        self.areas(false, &[(0, 1), (1, 0)]) - 1
    }

    /// How many areas of one colour there are, whose pixels hang together by these steps and their opposites.
    fn areas(&self, colour: bool, steps: &[(i64, i64)]) -> i32 {
        let mut reached: Vec<bool> = self.pixels.iter().map(|black| *black != colour).collect();
        let mut areas = 0;
        for first in 0..reached.len() {
            if reached[first] {
                continue;
            }
            areas += 1;
            reached[first] = true;
            let mut ends = vec![first];
            while let Some(at) = ends.pop() {
                for next in steps.iter().flat_map(|step| self.beside(at, *step)) {
                    if !reached[next] {
                        reached[next] = true;
                        ends.push(next);
                    }
                }
            }
        }
        areas
    }

    /// The pixels a step away from one, forward and back, as far as they are in the picture.
    fn beside(&self, at: usize, (across, up): (i64, i64)) -> impl Iterator<Item = usize> {
        let width = self.width as i64;
        let height = self.pixels.len() as i64 / width;
        let (column, row) = (at as i64 % width, at as i64 / width);
        let places = [(column + across, row + up), (column - across, row - up)];
        let inside = move |(column, row): &(i64, i64)| {
            (0..width).contains(column) && (0..height).contains(row)
        };
        let places = places.into_iter().filter(inside);
        places.map(move |(column, row)| (row * width + column) as usize)
    }
}

/// The middle of a column or row.
fn middle(pixel: i64) -> i64 {
    pixel * PIXEL + PIXEL / 2
}

/// The first column or row that a picture has, and how many: those that the places are in, and one on either side.
fn bounds(places: impl Iterator<Item = i64> + Clone) -> (i64, usize) {
    let pixels = places.map(|place| place.div_euclid(PIXEL));
    let (first, last) = (pixels.clone().min(), pixels.max());
    let (first, last) = (first.unwrap_or(0) - 1, last.unwrap_or(0) + 1);
    (first, (last - first + 1) as usize)
}

/// The places that the contours go by, each from its start to its start again.
fn contours(walk: &Walk, magnify: i64) -> Vec<Vec<Spot>> {
    let mut contours: Vec<Vec<Spot>> = Vec::new();
    for step in path::steps(walk) {
        if let Step::Move(place) = step {
            contours.push(vec![spot(place, magnify)]);
        }
        let contour = contours.last_mut().expect("a path begins with a move");
        let here = contour[contour.len() - 1];
        match step {
            Step::Move(_) => {}
            Step::Line(place) => contour.push(spot(place, magnify)),
            Step::Curve(by, to) => {
                let (by, to) = (spot(by, magnify), spot(to, magnify));
                contour.extend((1..=CUTS).map(|cut| on_curve(here, by, to, cut)));
            }
            Step::Close => contour.push(contour[0]),
        }
    }
    contours
}

/// A place of the path, magnified.
fn spot(place: Place, magnify: i64) -> Spot {
    let parts = |pixels: f32| (f64::from(pixels) * PIXEL as f64) as i64 * magnify;
    Spot {
        x: parts(place.x),
        y: parts(place.y),
    }
}

/// The place at a cut of a curve: as far between two places that are as far between its ends and its control point.
fn on_curve(from: Spot, by: Spot, to: Spot, cut: i64) -> Spot {
    let between = |a: i64, b: i64| a * (CUTS - cut) + b * cut;
    let place = |a: i64, b: i64, c: i64| {
        let whole = between(between(a, b), between(b, c));
        assert_eq!(whole % (CUTS * CUTS), 0);
        whole / (CUTS * CUTS)
    };
    Spot {
        x: place(from.x, by.x, to.x),
        y: place(from.y, by.y, to.y),
    }
}

/// Where the contours cross a height, the rightmost last.
fn crossings(contours: &[Vec<Spot>], height: i64) -> Vec<Crossing> {
    let lines = contours.iter().flat_map(|contour| contour.windows(2));
    let mut crossings: Vec<Crossing> = lines
        .filter_map(|line| Crossing::of(line[0], line[1], height))
        .collect();
    crossings.sort_by(Crossing::order);
    crossings
}

/// The pixels of a row, found from its right end on: a closed outline winds around a centre as the lines right of it do, the other way round.
fn row(crossings: &[Crossing], left: i64, width: usize) -> Vec<bool> {
    let mut pixels = vec![false; width];
    let (mut rest, mut winding) = (crossings, 0);
    for column in (0..width).rev() {
        let centre = middle(left + column as i64);
        while let Some((last, front)) = rest.split_last().filter(|(c, _)| c.is_right_of(centre)) {
            winding += last.turn;
            rest = front;
        }
        pixels[column] = winding != 0;
    }
    pixels
}
