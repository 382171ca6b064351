//! The program `refit` of request #103, written plainly, and what another program answers to the same streams.

use crate::{
    calls,
    frames::{hexadecimal, read_frame},
    job::{Dimension, Points},
    refusals::{self, Answer, Refusal},
};
use std::io::{self, BufRead, Write};

/// The byte that a reply with results begins with.
const DONE: u8 = 0x81;
/// The byte that a reply with a refusal begins with.
const REFUSED: u8 = 0x82;

/// Prints a line for each line of a log.
pub fn refit(mut input: impl BufRead, mut output: impl Write) -> io::Result<()> {
    let mut line = Vec::new();
    while input.read_until(b'\n', &mut line)? > 0 {
        output.write_all(&reply(&line))?;
        output.write_all(b"\n")?;
        line.clear();
    }
    output.flush()
}

/// The reply to a line, which is given with its line feed where it has one; without its own.
pub fn reply(line: &[u8]) -> Vec<u8> {
    let ended = line.strip_suffix(b"\n").ok_or(Refusal(6));
    let bytes = match ended.and_then(read_frame).and_then(results) {
        Ok(results) => {
            let mut bytes = vec![DONE, results.len() as u8];
            bytes.extend(results.into_iter().flat_map(three_bytes));
            bytes
        }
        Err(Refusal(number)) => vec![REFUSED, number as u8],
    };
    hexadecimal(&bytes)
}

/// What the weak points of a job come to: call 3 on one axis alone, as the given Rust is run in use. The numbers of a frame are never too steep.
fn results(points: Points) -> Answer<Vec<i32>> {
    refusals::outline(&points)?;
    Ok(calls::fitted(&points, Dimension::Horizontal))
}

/// A result as three signed bytes, the high one first.
fn three_bytes(result: i32) -> [u8; 3] {
    let [sign, high, middle, low] = result.to_be_bytes();
    debug_assert!(sign == if high >= 0x80 { 0xFF } else { 0 });
    [high, middle, low]
}
