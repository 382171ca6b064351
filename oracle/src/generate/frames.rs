//! Frames to write and to read, good and damaged.

use super::{points, Random};
use crate::{
    frames::write_frame,
    job::{Job, Points},
    limits::{FRAME_BYTE, FRAME_NUMBER, NUMBERS},
    refusals::{frame_digits, FRAME_DIGITS},
};

/// A job of writing: the line has as many places as the frame has digits, one fewer, or more.
pub fn write(small: bool, random: &mut Random) -> Job {
    let points = framed(small, random);
    let digits = frame_digits(points.originals.len(), points.ends.len());
    let room = match random.below(8) {
        0 => digits - random.pick(&[1, 1, 2, 6]),
        1..=4 => digits,
        5 => digits + 1,
        6 => digits + random.below(20),
        _ => random.below(2 * digits),
    };
    let line = (0..room).map(|_| character(random)).collect();
    Job::WriteFrame(points, line)
}

/// A job of reading: a good line, or a damaged one.
pub fn read(small: bool, random: &mut Random) -> Job {
    let mut line = digits(&framed(small, random));
    if random.once_in(3) {
        damage(&mut line, random);
    }
    Job::ReadFrame(line)
}

/// Points that a frame holds: like a glyph's, or any numbers and ends of their bytes.
pub fn framed(small: bool, random: &mut Random) -> Points {
    let mut points = points::within(*FRAME_NUMBER.end(), small, random);
    if random.coin() {
        return points;
    }
    let ends = random.below(5);
    points.ends = (0..ends).map(|_| random.below(256) as u16).collect();
    for list in [&mut points.originals, &mut points.currents] {
        for number in list {
            if random.coin() {
                *number = coordinate(random);
            }
        }
    }
    for mark in &mut points.touches {
        *mark = random.below(256) as u8;
    }
    points
}

/// A number of two signed bytes, often at an end of them, or where the old range ends or a byte's sign is.
fn coordinate(random: &mut Random) -> i32 {
    match random.below(3) {
        0 => random.pick(&[-32_768, 32_767, 16_383, 16_384, -16_383, -16_384]),
        1 => random.pick(&[-257, -256, -255, -129, -128, -1, 0, 127, 128, 255, 256]),
        _ => random.between(-32_768, 32_767),
    }
}

/// The digits of a frame.
pub fn digits(points: &Points) -> Vec<u8> {
    let mut line = vec![0; frame_digits(points.originals.len(), points.ends.len())];
    let written = write_frame(points, &mut line);
    debug_assert!(written.is_ok(), "these points make a frame");
    line
}

/// A character that may stand in a line: mostly a digit.
pub fn character(random: &mut Random) -> u8 {
    match random.below(4) {
        0 => random.pick(b"gG/:@` \t\r\n\0\x7F\x80\xFF"),
        1 => random.pick(b"abcdef"),
        _ => random.pick(b"0123456789ABCDEF"),
    }
}

/// Makes a good line one that is mostly no whole frame.
pub fn damage(line: &mut Vec<u8>, random: &mut Random) {
    let at = random.below(line.len());
    match random.below(14) {
        0 => line[at] = character(random),
        1 => *line = line.to_ascii_lowercase(),
        2 => line[at] = line[at].to_ascii_lowercase(),
        3 => line.truncate(at),
        4 => line.truncate(at & !1),
        5 => line.extend_from_slice(b"00"),
        6 => line.push(random.pick(b"0A")),
        7 => drop(line.remove(at)),
        8 => line.clear(),
        9 => line.insert(random.pick(&[0, at, line.len()]), random.pick(b" \r\t\xEF")),
        10 => line[1] = random.pick(b"023F"),
        11 => line[0] = random.pick(b"1248"),
        // the counts: one more or fewer, or moved from the points to the contours
        _ => line[random.pick(&[2, 3, 4, 5])] = random.pick(b"0123456789ABCDEF"),
    }
}

/// Makes the lists of a frame long or unlike, and the line about as long as the digits.
pub fn resize(points: &mut Points, line: &mut Vec<u8>, random: &mut Random) {
    let many = random.pick(&[FRAME_BYTE - 1, FRAME_BYTE, FRAME_BYTE, FRAME_BYTE + 1, 300]);
    match random.below(8) {
        0..=1 => points_of(points, many),
        2 => points.ends.resize(many, 255),
        3 => {
            points_of(points, many);
            points.ends.resize(random.pick(&[many, 255, 256]), 7);
        }
        4 => drop(points.originals.pop()),
        5 => points.currents.push(0),
        6 => points.touches.push(1),
        _ => points.ends.push(random.pick(&[255, 256])),
    }
    let digits = frame_digits(points.originals.len(), points.ends.len());
    let room = digits - 1 + random.pick(&[0, 1, 1, 1, 2, 40]);
    line.resize(room, b'x');
}

/// Gives a frame so many points.
fn points_of(points: &mut Points, count: usize) {
    points.originals.resize(count, -5);
    points.currents.resize(count, 6);
    points.touches.resize(count, 1);
}

/// The longest frame.
pub fn longest(random: &mut Random) -> Points {
    let mut points = framed(false, random);
    points_of(&mut points, FRAME_BYTE);
    if random.coin() {
        points.ends = (0..FRAME_BYTE as u16).collect();
    }
    points.ends.resize(FRAME_BYTE, 255);
    points
}

/// Makes a line about as long as the longest frame, or as the longest list of a job.
pub fn lengthen(line: &mut Vec<u8>, random: &mut Random) {
    let mut full = digits(&longest(random));
    match random.below(8) {
        0..=2 => *line = full,
        3 => {
            full.truncate(FRAME_DIGITS - random.pick(&[1, 2]));
            *line = full;
        }
        4..=5 => {
            full.extend_from_slice(random.pick(&[&b"0"[..], b"00", b"000", b"0000"]));
            *line = full;
        }
        6 => {
            // a good frame behind the digits of the longest one
            full.append(line);
            *line = full;
        }
        _ => line.resize(random.pick(&[NUMBERS - 1, NUMBERS, NUMBERS + 1]), b'0'),
    }
}
