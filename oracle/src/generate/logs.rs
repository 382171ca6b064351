//! Logs for `refit`: lines of every kind, in any mixture.

use super::{
    frames::{damage, digits, framed, longest},
    points, Random,
};
use crate::{job::Points, limits::OLD_COORDINATE, refusals::FRAME_DIGITS};

/// A log of about so many lines, the last one now and then without its line feed.
pub fn log(lines: usize, random: &mut Random) -> Vec<u8> {
    let mut log = Vec::new();
    // what most lines of this log are
    let favourite = random.below(KINDS);
    for _ in 0..lines {
        let kind = if random.coin() {
            favourite
        } else {
            random.below(KINDS)
        };
        log.append(&mut line(kind, random));
        log.push(b'\n');
    }
    if random.once_in(3) {
        log.pop();
    }
    log
}

/// A log of so many good frames like a glyph's, for measuring.
pub fn good_log(lines: usize, random: &mut Random) -> Vec<u8> {
    let mut log = Vec::new();
    for _ in 0..lines {
        log.append(&mut digits(&old(false, random)));
        log.push(b'\n');
    }
    log
}

/// An outline in the old range, which the given Rust answers.
fn old(small: bool, random: &mut Random) -> Points {
    points::within(*OLD_COORDINATE.end(), small, random)
}

/// How many kinds of lines there are.
const KINDS: usize = 9;

/// A line of some kind, without its line feed.
fn line(kind: usize, random: &mut Random) -> Vec<u8> {
    let small = random.coin();
    let mut line = digits(&framed(small, random));
    match kind {
        0 => line = digits(&old(small, random)),
        1 => {}
        2 => damage(&mut line, random),
        3 => return overlong(random),
        4 => line.truncate(random.below(line.len())),
        5 => line.clear(),
        6 => line.push(b'\r'),
        7 => line = line.to_ascii_lowercase(),
        _ if random.once_in(4) => line = digits(&longest(random)),
        _ => {
            // any bytes but a line feed
            let any = (0..random.below(40)).map(|_| random.bits() as u8);
            line = any.filter(|byte| *byte != b'\n').collect();
        }
    }
    line
}

/// A line of more digits than a frame has: one or two more, or a good frame behind so many that it would be answered
/// where a reader begins again there.
fn overlong(random: &mut Random) -> Vec<u8> {
    let mut line = match random.below(4) {
        0 => digits(&longest(random)),
        1 => Vec::new(),
        2 => vec![b'0'; random.below(FRAME_DIGITS)],
        _ => digits(&framed(true, random)),
    };
    let good = digits(&framed(true, random));
    let front = match random.below(8) {
        0..=1 => {
            line.resize(FRAME_DIGITS + random.pick(&[1, 1, 2, 2, 3]), b'0');
            return line;
        }
        2..=3 => FRAME_DIGITS,
        4 => FRAME_DIGITS + random.pick(&[1, 2]),
        5 => random.pick(&[2, 3, 4]) * (FRAME_DIGITS + random.below(2)),
        6 => random.pick(&[4_096, 8_192, 16_384, 65_536]) - random.below(3),
        _ => FRAME_DIGITS + random.below(60_000),
    };
    // the same good frame over and over, or the first line's digits and zeros
    if random.coin() {
        line.resize(front % good.len(), b'0');
        while line.len() < front {
            line.extend_from_slice(&good);
        }
    }
    line.resize(front, b'0');
    line.extend_from_slice(&good);
    line
}
