//! Pieces and holes of a bitmap. Black pixels hang together by sides and corners, white ones by sides alone: so a diagonal stroke is one piece, and keeps what it encloses.

use crate::fill::Bitmap;
use std::fmt;

/// The pieces, holes and the outside of a bitmap: for each pixel the number of its part. Part 0 is the outside.
pub struct Parts {
    pub of: Vec<usize>,
    pub parts: Vec<Part>,
}

/// Part 0: the white around everything.
pub const OUTSIDE: usize = 0;

/// A part: its colour, how many pixels it has, and the columns and rows that it reaches from and to.
#[derive(Clone, Copy, Debug, PartialEq, Eq)]
pub struct Part {
    pub black: bool,
    pub pixels: usize,
    pub area: Area,
}

/// Columns and rows from and to, both within.
#[derive(Clone, Copy, Debug, PartialEq, Eq)]
pub struct Area {
    pub left: i32,
    pub right: i32,
    pub bottom: i32,
    pub top: i32,
}

/// How many pieces and holes there are.
#[derive(Clone, Copy, Debug, PartialEq, Eq)]
pub struct Count {
    pub pieces: usize,
    pub holes: usize,
}

impl Count {
    /// Their Euler number: pieces less holes.
    pub fn euler(self) -> i32 {
        self.pieces as i32 - self.holes as i32
    }
}

impl fmt::Display for Count {
    fn fmt(&self, f: &mut fmt::Formatter<'_>) -> fmt::Result {
        let s = |count| if count == 1 { "" } else { "s" };
        write!(
            f,
            "{} piece{}, {} hole{}",
            self.pieces,
            s(self.pieces),
            self.holes,
            s(self.holes)
        )
    }
}

const SIDES: [(i32, i32); 4] = [(1, 0), (-1, 0), (0, 1), (0, -1)];
const SIDES_AND_CORNERS: [(i32, i32); 8] = [
    (1, 0),
    (-1, 0),
    (0, 1),
    (0, -1),
    (1, 1),
    (1, -1),
    (-1, 1),
    (-1, -1),
];

impl Parts {
    /// The parts of a bitmap, which has a white border: so the first pixel is outside.
    pub fn of(bitmap: &Bitmap) -> Self {
        let mut of = vec![None; bitmap.black.len()];
        let mut parts = Vec::new();
        for (x, y) in bitmap.pixels() {
            let ix = bitmap.index(x, y).expect("a pixel of the bitmap");
            if of[ix].is_none() {
                parts.push(flood(bitmap, &mut of, (x, y), parts.len()));
            }
        }
        let of = of
            .into_iter()
            .map(|part| part.expect("every pixel has a part"))
            .collect();
        Self { of, parts }
    }

    /// How many pieces and holes there are.
    pub fn count(&self) -> Count {
        Count {
            pieces: self.pieces().count(),
            holes: self.holes().count(),
        }
    }

    /// The numbers of the pieces.
    pub fn pieces(&self) -> impl Iterator<Item = usize> + '_ {
        (0..self.parts.len()).filter(|part| self.parts[*part].black)
    }

    /// The numbers of the holes.
    pub fn holes(&self) -> impl Iterator<Item = usize> + '_ {
        (0..self.parts.len()).filter(|part| *part != OUTSIDE && !self.parts[*part].black)
    }

    /// The bitmap of these parts with its specks, parts of fewer pixels than so many, in the colour of what is around them; none where there is no speck.
    pub fn without_specks(&self, bitmap: &Bitmap, least: usize) -> Option<Bitmap> {
        let is_speck = |part: usize| part != OUTSIDE && self.parts[part].pixels < least;
        let turned = bitmap.black.iter().zip(&self.of);
        let turned = turned.map(|(black, part)| black ^ is_speck(*part));
        (0..self.parts.len()).any(is_speck).then(|| Bitmap {
            black: turned.collect(),
            ..*bitmap
        })
    }
}

/// Numbers all pixels that hang together with one, and tells what part they make.
fn flood(bitmap: &Bitmap, of: &mut [Option<usize>], start: (i32, i32), number: usize) -> Part {
    let black = bitmap.is_black(start.0, start.1);
    let ways: &[(i32, i32)] = if black { &SIDES_AND_CORNERS } else { &SIDES };
    let mut area = Area {
        left: start.0,
        right: start.0,
        bottom: start.1,
        top: start.1,
    };
    let (mut pixels, mut open) = (0, vec![start]);
    while let Some((x, y)) = open.pop() {
        let Some(ix) = bitmap.index(x, y) else {
            continue;
        };
        if of[ix].is_some() || bitmap.black[ix] != black {
            continue;
        }
        of[ix] = Some(number);
        pixels += 1;
        area = Area {
            left: area.left.min(x),
            right: area.right.max(x),
            bottom: area.bottom.min(y),
            top: area.top.max(y),
        };
        open.extend(ways.iter().map(|(dx, dy)| (x + dx, y + dy)));
    }
    Part {
        black,
        pixels,
        area,
    }
}
