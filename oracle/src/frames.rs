//! Calls 25 and 26: a job of weak points as one line of upper-case hexadecimal digits, written from request #103 alone.

use crate::{
    job::Points,
    refusals::{self, Answer, Refusal},
};

/// The byte that a frame begins with.
const JOB: u8 = 0x01;
/// The bytes of a point in a frame: its mark, and two for each of its numbers.
const POINT: usize = 5;
/// The digits, by their values.
const DIGITS: &[u8; 16] = b"0123456789ABCDEF";

/// Call 25: the line is lent; hands back the count of digits.
pub fn write_frame(points: &Points, line: &mut [u8]) -> Answer<usize> {
    refusals::write_frame(points, line.len())?;
    let digits = hexadecimal(&frame(points));
    line[..digits.len()].copy_from_slice(&digits);
    Ok(digits.len())
}

/// Call 26: hands back the job, which document 01 is not asked about.
pub fn read_frame(line: &[u8]) -> Answer<Points> {
    bytes(line)
        .and_then(|bytes| points(&bytes))
        .ok_or(Refusal(6))
}

/// The bytes of a frame that holds these points.
fn frame(points: &Points) -> Vec<u8> {
    let (count, contours) = (points.originals.len(), points.ends.len());
    let mut bytes = vec![JOB, count as u8, contours as u8];
    for (ix, mark) in points.touches.iter().enumerate() {
        bytes.push(*mark);
        bytes.extend((points.originals[ix] as i16).to_be_bytes());
        bytes.extend((points.currents[ix] as i16).to_be_bytes());
    }
    bytes.extend(points.ends.iter().map(|end| *end as u8));
    bytes
}

/// The points that a frame's bytes hold, if they are a whole frame.
fn points(bytes: &[u8]) -> Option<Points> {
    let [JOB, count, contours, rest @ ..] = bytes else {
        return None;
    };
    let (count, contours) = (usize::from(*count), usize::from(*contours));
    if rest.len() != POINT * count + contours {
        return None;
    }
    let (records, ends) = rest.split_at(POINT * count);
    let number = |high: u8, low: u8| i16::from_be_bytes([high, low]).into();
    let mut points = Points::none();
    for record in records.chunks_exact(POINT) {
        points.touches.push(record[0]);
        points.originals.push(number(record[1], record[2]));
        points.currents.push(number(record[3], record[4]));
    }
    points.ends = ends.iter().map(|end| u16::from(*end)).collect();
    Some(points)
}

/// Bytes as digits, the high one first.
pub fn hexadecimal(bytes: &[u8]) -> Vec<u8> {
    let digit = |value: u8| DIGITS[usize::from(value)];
    let digits = bytes
        .iter()
        .flat_map(|byte| [digit(byte >> 4), digit(byte & 15)]);
    digits.collect()
}

/// The bytes that a line's digits stand for, if there are digits alone and an even number of them.
fn bytes(line: &[u8]) -> Option<Vec<u8>> {
    if !line.len().is_multiple_of(2) {
        return None;
    }
    line.chunks_exact(2)
        .map(|pair| Some(value(pair[0])? << 4 | value(pair[1])?))
        .collect()
}

/// The value of a digit.
fn value(digit: u8) -> Option<u8> {
    let place = DIGITS.iter().position(|known| *known == digit)?;
    Some(place as u8)
}
