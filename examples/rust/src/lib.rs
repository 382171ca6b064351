//! The figure 3 of the sample label, drawn in 1,000 design units to the em, as the examples fit it: its outline, the sides of both axes, zones and widths; and how a path is printed.

use khsaemudol::{Dimension, Direction, Flags, Outline, Path, PathStep, Segment, WidthRule};

/// Units of a pixel.
pub const PIXEL: i32 = 64;
/// The least gap that may not be lost: half a pixel.
pub const LEAST_GAP: i32 = PIXEL / 2;
/// Pixels to the em.
pub const PIXELS: i32 = 12;
/// Pieces less holes of a 3: a gateway keeps this number for each character, as a typesetter set it.
pub const THREE: i32 = 1;
/// From design units to units, in 16.16.
pub const SCALE: i32 = (PIXELS as i64 * PIXEL as i64 * 65_536 / 1_000) as i32;
/// A pixel in design units, to the nearest.
pub const DESIGN_PIXEL: i32 = (PIXEL * 65_536 + SCALE / 2) / SCALE;

/// The points of the outline.
pub const POINTS: usize = 25;

/// Their x coordinates, in design units. They make one contour, which goes clockwise.
pub const XS: [i16; POINTS] = [
    50, 160, 340, 440, 440, 380, 450, 450, 340, 160, 40, 130, 190, 310, 360, 360, 310, 200, 200,
    300, 350, 350, 300, 190, 140,
];

/// Their y coordinates.
pub const YS: [i16; POINTS] = [
    590, 712, 712, 600, 450, 366, 280, 110, -12, -12, 110, 150, 68, 68, 140, 260, 325, 325, 405,
    405, 470, 570, 632, 632, 550,
];

/// Which of them are on the curve.
pub const ON_CURVE: [u8; POINTS] = [
    1, 0, 0, 0, 0, 1, 0, 0, 0, 0, 1, 1, 0, 0, 0, 0, 0, 1, 1, 0, 0, 0, 0, 0, 1,
];

/// The last point of each contour.
pub const ENDS: [u16; 1] = [POINTS as u16 - 1];

/// A side: direction, position, extent, the side across the stem, first point, and flags.
pub type Side = (Direction, i16, [i16; 2], Option<u16>, u16, Flags);

/// An axis: its name, dimension and major direction, how long a side has to be for an edge, the points' coordinates on it, and its sides.
pub struct Axis<'a> {
    pub name: &'a str,
    pub dimension: Dimension,
    pub major: Direction,
    pub length: i32,
    pub points: [i16; POINTS],
    pub sides: &'a [Side],
}

/// The heights.
pub const HEIGHTS: Axis<'_> = Axis {
    name: "heights",
    dimension: Dimension::Vertical,
    major: Direction::Left,
    length: 0,
    points: YS,
    sides: &[
        (Direction::Right, 712, [160, 340], Some(5), 1, Flags::ROUND),
        (Direction::Left, -12, [160, 340], Some(2), 8, Flags::ROUND),
        (Direction::Right, 68, [190, 310], Some(1), 12, Flags::ROUND),
        (Direction::Left, 325, [200, 310], Some(4), 16, Flags::ROUND),
        (Direction::Right, 405, [200, 300], Some(3), 18, Flags::ROUND),
        (Direction::Left, 632, [190, 300], Some(0), 22, Flags::ROUND),
    ],
};

/// The widths.
pub const WIDTHS: Axis<'_> = Axis {
    name: "widths",
    dimension: Dimension::Horizontal,
    major: Direction::Up,
    length: DESIGN_PIXEL,
    points: XS,
    sides: &[
        (Direction::Down, 440, [450, 600], Some(4), 3, Flags::ROUND),
        (Direction::Down, 450, [110, 280], Some(2), 6, Flags::ROUND),
        (Direction::Up, 360, [140, 260], Some(1), 14, Flags::ROUND),
        (Direction::Up, 200, [325, 405], None, 17, Flags::NONE),
        (Direction::Up, 350, [470, 570], Some(0), 20, Flags::ROUND),
    ],
};

/// The zones of the foot and of the head: a height in design units, and where it is to be, in units.
pub const ZONES: [(i16, i32); 2] = [(-12, 0), (712, 8 * PIXEL)];

/// Stems come to widths of one pixel and of two.
pub const RULE: WidthRule<'_> = WidthRule::Snap(&[PIXEL, 2 * PIXEL]);

/// The segments of an axis' sides, linked, and not joined to edges yet.
pub fn segments(axis: &Axis<'_>) -> Vec<Segment> {
    let segment = |&(dir, pos, [low, high], link, first, flags): &Side| {
        Segment::default()
            .with_flags(flags)
            .with_dir(dir)
            .with_pos(pos)
            .with_min_coord(low)
            .with_max_coord(high)
            .with_height(high - low)
            .with_score(32_000)
            .with_link(link)
            .with_first(first)
            .with_last(first + 1)
    };
    axis.sides.iter().map(segment).collect()
}

/// A coordinate at the scale, in units: to the nearest, halves away from zero.
pub fn scaled(coordinate: i16) -> i32 {
    let product = i64::from(coordinate) * i64::from(SCALE);
    ((product.abs() + 0x8000) / 0x1_0000 * product.signum()) as i32
}

/// The outline whose points are at these places.
pub fn outline<'a>(xs: &'a [i32; POINTS], ys: &'a [i32; POINTS]) -> Outline<'a> {
    Outline {
        xs,
        ys,
        marks: &ON_CURVE,
        ends: &ENDS,
    }
}

/// A step of a path as text, its places in pixels.
fn step_text(step: PathStep) -> String {
    match step {
        PathStep::Move(to) => format!("M {} {}", to.x, to.y),
        PathStep::Line(to) => format!("L {} {}", to.x, to.y),
        PathStep::Curve(by, to) => format!("Q {} {} {} {}", by.x, by.y, to.x, to.y),
        PathStep::Close => "Z".into(),
    }
}

/// Prints the steps of a path, four to a line, and each contour on lines of its own.
pub fn print_steps(path: Path<'_>) {
    let steps: Vec<PathStep> = path.collect();
    println!("  path      {} steps", steps.len());
    for contour in steps.split_inclusive(|step| *step == PathStep::Close) {
        let texts: Vec<String> = contour.iter().map(|step| step_text(*step)).collect();
        let (close, drawn) = texts.split_last().expect("a contour ends in a close");
        let lines: Vec<String> = drawn.chunks(4).map(|line| line.join("  ")).collect();
        println!("    {}  {close}", lines.join("\n    "));
    }
}
