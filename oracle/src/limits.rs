//! The numbers of document 01 that bound the input, and those of document 02's calls.

use std::ops::RangeInclusive;

/// Points of an outline.
pub const POINTS: usize = 4_096;
/// Segments of an axis.
pub const SEGMENTS: usize = 512;
/// Edges of an axis.
pub const EDGES: usize = 128;
/// Original and current coordinates of points, `opos`, blue `fitted`, building's products.
pub const COORDINATE: RangeInclusive<i32> = -65_535..=65_535;
/// The same before request #109: equality with the given Rust is claimed within it.
pub const OLD_COORDINATE: RangeInclusive<i32> = -16_383..=16_383;
/// The delta passed to the CJK stem.
pub const DELTA: RangeInclusive<i32> = -16_383..=16_383;
/// Coordinates of the path: what weak points can reach.
pub const RESULT: RangeInclusive<i32> = -196_605..=196_605;
/// `pos` of an edge.
pub const POSITION: RangeInclusive<i32> = -16_777_216..=16_777_216;
/// Scale, 16.16.
pub const SCALE: RangeInclusive<i32> = 1..=16_777_216;
/// Units per em.
pub const UNITS_PER_EM: RangeInclusive<i32> = 16..=16_384;
/// Segment score, segment len, the three build thresholds.
pub const MEASURE: RangeInclusive<i32> = 0..=65_535;
/// Edges in the lowercase m call.
pub const M_EDGES: [usize; 2] = [6, 12];
/// Standards of the width rule.
pub const STANDARDS: usize = 16;
/// One standard.
pub const STANDARD: RangeInclusive<i32> = 1..=16_383;
/// The least width of a gap that the guard asks about.
pub const LEAST: RangeInclusive<i32> = 0..=65_535;
/// How many times an outline is magnified before its pixels are counted.
pub const MAGNIFY: RangeInclusive<i32> = 1..=64;
/// Points of a frame, its contours, and a contour's end in it: one byte each.
pub const FRAME_BYTE: usize = 255;
/// A coordinate of a frame: two signed bytes.
pub const FRAME_NUMBER: RangeInclusive<i32> = -32_768..=32_767;
/// The numbers that fitting an axis is told, in a list of their own.
pub const FIT_NUMBERS: usize = 9;
/// The longest list of numbers that is a job.
pub const NUMBERS: usize = 8_191;
/// The longest lent list of edges that is a job.
pub const LENT: usize = 160;
