//! The glyph whose chain is timed, of median size: two rings and a dot, drawn in 1,000 design units to the em. Their contours are boxes with round corners.

use khsaemudol::{Direction, Flags, Segment};
use oracle::generate::Random;

/// The edges of each axis, two for each of four stems.
pub const EDGES: usize = 8;
/// The segments of each axis: two sides of every box.
pub const SEGMENTS: usize = 2 * BOXES;
/// The points.
pub const POINTS: usize = 71;

/// The boxes: the outer and the inner contour of one ring, those of the other, and the dot.
const BOXES: usize = 5;
/// The points of a box: two for every side, and one for every corner.
const PLAIN: usize = 12;
/// How many corners of each box have two points.
const DOUBLED: [usize; BOXES] = [2, 2, 2, 2, 3];
/// How far a side's ends are from its corners.
const ROUNDING: i32 = 5;
/// How far two points of a corner are from it.
const SECOND: i32 = 2;

/// The edges on which the low and the high side of each box stand, on the horizontal and on the vertical axis.
const SIDES: [[[usize; 2]; 2]; BOXES] = [
    [[0, 5], [0, 3]],
    [[1, 4], [1, 2]],
    [[2, 7], [4, 7]],
    [[3, 6], [5, 6]],
    [[6, 7], [0, 1]],
];

/// The directions of a box' sides, clockwise from its left one on.
const CLOCKWISE: [Direction; 4] = [
    Direction::Up,
    Direction::Right,
    Direction::Down,
    Direction::Left,
];

/// A place: its coordinates on the horizontal and on the vertical axis.
type Place = [i32; 2];

/// An outline with the segments of both axes, horizontal and vertical, which are not linked yet.
#[derive(Default)]
pub struct Glyph {
    pub places: Vec<Place>,
    pub on_curve: Vec<u8>,
    pub ends: Vec<u16>,
    pub segments: [Vec<Segment>; 2],
}

impl Glyph {
    /// A glyph whose stems and gaps are as wide as it happens.
    pub fn new(random: &mut Random) -> Self {
        let positions = [positions(random), positions(random)];
        let mut glyph = Self::default();
        for (ix, edges) in SIDES.iter().enumerate() {
            let sides = [0, 1].map(|dim| edges[dim].map(|edge| positions[dim][edge]));
            glyph.draw(ix, sides, random);
        }
        glyph
    }

    /// Draws a box by the positions of its low and high sides: clockwise, or the other way round within a ring.
    fn draw(&mut self, ix: usize, sides: [[i32; 2]; 2], random: &mut Random) {
        let [[left, right], [low, high]] = sides;
        let corners = [[left, low], [left, high], [right, high], [right, low]];
        let inner = ix % 2 == 1;
        let mut points = Vec::new();
        for side in 0..4 {
            let [from, to, next] = [0, 1, 2].map(|corner| corners[(side + corner) % 4]);
            let ends = [toward(from, to, ROUNDING), toward(to, from, ROUNDING)];
            let ahead = if inner {
                PLAIN + DOUBLED[ix] - 2 - points.len()
            } else {
                points.len()
            };
            let first = (self.places.len() + ahead) as u16;
            let segment = segment(side, inner, ends, random.coin());
            self.segments[side % 2].push(segment.with_first(first).with_last(first + 1));
            points.extend(ends.map(|end| (end, 1)));
            if side < DOUBLED[ix] {
                points.extend([from, next].map(|other| (toward(to, other, SECOND), 0)));
            } else {
                points.push((to, 0));
            }
        }
        if inner {
            points.reverse();
        }
        self.places.extend(points.iter().map(|(place, _)| place));
        self.on_curve.extend(points.iter().map(|(_, on)| on));
        self.ends.push((self.places.len() - 1) as u16);
    }
}

/// The rising positions of an axis' edges.
fn positions(random: &mut Random) -> [i32; EDGES] {
    let mut next = random.between(-20, 20);
    std::array::from_fn(|ix| {
        let position = next;
        next += if ix % 2 == 0 {
            random.between(75, 95)
        } else {
            random.between(110, 150)
        };
        position
    })
}

/// A place so far from one, on the way to another.
fn toward(from: Place, to: Place, by: i32) -> Place {
    [0, 1].map(|dim| from[dim] + by * (to[dim] - from[dim]).signum())
}

/// The segment of a side, of which the left one is the first, between its ends.
fn segment(side: usize, inner: bool, ends: [Place; 2], round: bool) -> Segment {
    let dim = side % 2;
    let [from, to] = ends.map(|end| end[1 - dim] as i16);
    Segment::default()
        .with_flags(if round { Flags::ROUND } else { Flags::NONE })
        .with_dir(CLOCKWISE[if inner { side ^ 2 } else { side }])
        .with_pos(ends[0][dim] as i16)
        .with_min_coord(from.min(to))
        .with_max_coord(from.max(to))
        .with_height((from - to).abs())
        .with_score(32_000)
}
