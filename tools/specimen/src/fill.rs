//! The black pixels of a path: those whose centres a nonzero fill covers.

use crate::pieces::Area;
use khsaemudol::{PathStep, PixelPoint};

/// Lines that a curve is made of, through its places at each part of it.
const LINES_OF_A_CURVE: i64 = 16;

/// A place is a whole number of this part of a pixel: what the library's paths are made of, times the weights of a curve's places.
const PARTS: i64 = 64 * 512 * LINES_OF_A_CURVE * LINES_OF_A_CURVE;

/// Pixels, row by row from the bottom, and where the first one's corner is. A pixel is one `per_pixel`th of a pixel of the path.
#[derive(Clone, Debug, PartialEq, Eq)]
pub struct Bitmap {
    pub left: i32,
    pub bottom: i32,
    pub width: usize,
    pub height: usize,
    pub black: Vec<bool>,
}

impl Bitmap {
    /// Whether the pixel of a column and a row is black; outside of the bitmap none is.
    pub fn is_black(&self, x: i32, y: i32) -> bool {
        self.index(x, y).is_some_and(|ix| self.black[ix])
    }

    /// Where a pixel stands, if it is here.
    pub fn index(&self, x: i32, y: i32) -> Option<usize> {
        let column = usize::try_from(x - self.left)
            .ok()
            .filter(|column| *column < self.width)?;
        let row = usize::try_from(y - self.bottom)
            .ok()
            .filter(|row| *row < self.height)?;
        Some(row * self.width + column)
    }

    /// The columns and rows of the bitmap.
    pub fn area(&self) -> Area {
        Area {
            left: self.left,
            right: self.left + self.width as i32 - 1,
            bottom: self.bottom,
            top: self.bottom + self.height as i32 - 1,
        }
    }

    /// All pixels: column and row.
    pub fn pixels(&self) -> impl Iterator<Item = (i32, i32)> + '_ {
        let Area {
            left,
            right,
            bottom,
            top,
        } = self.area();
        (bottom..=top).flat_map(move |y| (left..=right).map(move |x| (x, y)))
    }
}

/// A place in parts of a pixel of the bitmap.
type Spot = (i64, i64);

/// A line of an outline.
struct Line {
    from: Spot,
    to: Spot,
}

/// Fills a path at so many times its size, with a border of white pixels around it.
pub fn fill(path: &[PathStep], per_pixel: i32) -> Bitmap {
    let lines = lines_of(path, per_pixel.into());
    let ends = || lines.iter().flat_map(|line| [line.from, line.to]);
    let (left, width) = bounds(ends().map(|end| end.0));
    let (bottom, height) = bounds(ends().map(|end| end.1));
    let mut black = Vec::with_capacity(width * height);
    for y in (bottom..).take(height) {
        let crossings = crossings(&lines, centre(y));
        black.extend((left..).take(width).map(|x| winding(&crossings, x) != 0));
    }
    Bitmap {
        left,
        bottom,
        width,
        height,
        black,
    }
}

/// The first column or row, and how many there are: those that places are in, and one on either side.
fn bounds(places: impl Iterator<Item = i64> + Clone) -> (i32, usize) {
    let (least, most) = (places.clone().min(), places.max());
    let first = least.unwrap_or(0).div_euclid(PARTS) - 1;
    let behind = 1 - (-most.unwrap_or(0)).div_euclid(PARTS);
    (first as i32, (behind - first) as usize)
}

/// The centre of a column or row.
fn centre(pixel: i32) -> i64 {
    i64::from(pixel) * PARTS + PARTS / 2
}

/// The first columns whose centres are at or right of where lines cross a height, and 1 where these go upward, -1 where they go downward. A line's lower end belongs to it, its upper one not.
fn crossings(lines: &[Line], y: i64) -> Vec<(i64, i32)> {
    let crossing = |line: &Line| {
        let ((x0, y0), (x1, y1)) = (line.from, line.to);
        let turn = i32::from(y0 <= y && y < y1) - i32::from(y1 <= y && y < y0);
        (turn != 0).then(|| {
            let (low, high) = if turn > 0 { (y0, y1) } else { (y1, y0) };
            let (low_x, high_x) = if turn > 0 { (x0, x1) } else { (x1, x0) };
            let weighted = |x: i64, height: i64| i128::from(x) * i128::from(height);
            let at = weighted(low_x, high - y) + weighted(high_x, y - low);
            (first_column(at, (high - low).into()), turn)
        })
    };
    lines.iter().filter_map(crossing).collect()
}

/// The first column whose centre is at or right of a quotient.
fn first_column(over: i128, under: i128) -> i64 {
    let (side, centre) = (i128::from(PARTS) * under, i128::from(PARTS / 2) * under);
    -((centre - over).div_euclid(side)) as i64
}

/// How often an outline winds around the centre of a column of the row whose crossings these are.
fn winding(crossings: &[(i64, i32)], x: i32) -> i32 {
    crossings
        .iter()
        .filter(|(first, _)| *first <= i64::from(x))
        .map(|(_, turn)| turn)
        .sum()
}

/// The lines of a path at so many times its size.
fn lines_of(path: &[PathStep], times: i64) -> Vec<Line> {
    let whole = |pixels: f32| {
        let weights = LINES_OF_A_CURVE * LINES_OF_A_CURVE;
        (f64::from(pixels) * (PARTS / weights) as f64).round() as i64 * weights * times
    };
    let place = |point: PixelPoint| (whole(point.x), whole(point.y));
    let (mut start, mut at) = ((0, 0), (0, 0));
    let mut lines = Vec::new();
    for step in path {
        match *step {
            PathStep::Move(to) => (start, at) = (place(to), place(to)),
            PathStep::Line(to) => {
                lines.push(Line {
                    from: at,
                    to: place(to),
                });
                at = place(to);
            }
            PathStep::Curve(by, to) => {
                lines.extend(curve(at, place(by), place(to)));
                at = place(to);
            }
            PathStep::Close => {
                lines.push(Line {
                    from: at,
                    to: start,
                });
                at = start;
            }
        }
    }
    lines
}

/// The lines of a quadratic curve. Its places are whole, since its points are whole times the weights.
fn curve(from: Spot, by: Spot, to: Spot) -> impl Iterator<Item = Line> {
    let mix = |a: i64, b: i64, c: i64, n: i64| {
        let left = LINES_OF_A_CURVE - n;
        (left * left * a + 2 * left * n * b + n * n * c) / (LINES_OF_A_CURVE * LINES_OF_A_CURVE)
    };
    let place = move |n: i64| (mix(from.0, by.0, to.0, n), mix(from.1, by.1, to.1, n));
    (0..LINES_OF_A_CURVE).map(move |n| Line {
        from: place(n),
        to: place(n + 1),
    })
}
