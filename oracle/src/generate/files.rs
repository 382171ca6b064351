//! Files of saved axes for `mend`: lines of every kind, in any mixture.

use super::{line as job_line, saved, Profile, Random};
use crate::{job::Job, text, words::encode};

/// A file of about so many lines, the last one now and then without its line feed.
pub fn file(lines: usize, random: &mut Random) -> Vec<u8> {
    let mut file = Vec::new();
    for _ in 0..lines {
        file.append(&mut line(random));
        file.push(b'\n');
    }
    if random.once_in(3) {
        file.pop();
    }
    file
}

/// The word of mending.
const MEND: usize = 121;

/// A line of some kind, without its line feed.
fn line(random: &mut Random) -> Vec<u8> {
    let profile = random.pick(&[Profile::Small, Profile::Small, Profile::Mixed]);
    let mut line = job_line(MEND, profile, random);
    match random.below(40) {
        0..=19 => {}
        20..=23 => line = job_line(MEND, Profile::Limits, random),
        24..=27 => line = job_line(MEND, Profile::Damaged, random),
        28 => line.clear(),
        29 => line.push(b'\r'),
        30 => line = line.to_ascii_lowercase(),
        31 => line.truncate(random.below(line.len())),
        32 => line = job_line(random.pick(&[123, 124, 105]), Profile::Small, random),
        33 => line = without_marks(random),
        34 => line = longest(random),
        35 => line = overlong(random),
        _ => {
            // any bytes but a line feed
            let any = (0..random.below(40)).map(|_| random.bits() as u8);
            line = any.filter(|byte| *byte != b'\n').collect();
        }
    }
    line
}

/// The line of a job.
fn written(job: &Job) -> Vec<u8> {
    text::write(&encode(job).values).into_bytes()
}

/// An axis as it was saved before edges had marks.
fn without_marks(random: &mut Random) -> Vec<u8> {
    let words = encode(&saved::mend(true, random));
    let kept = words.names.iter().zip(&words.values);
    let kept = kept.filter(|(name, _)| **name != "edge.mark");
    text::write(&kept.map(|(_, word)| *word).collect::<Vec<_>>()).into_bytes()
}

/// An axis of as many segments and edges as there can be.
fn longest(random: &mut Random) -> Vec<u8> {
    written(&saved::longest(random))
}

/// A line of more digits than an axis has: the longest one and a few more, or an axis behind so many that it would be read where a reader begins again there.
fn overlong(random: &mut Random) -> Vec<u8> {
    let mut line = longest(random);
    match random.below(4) {
        0 => {
            line.resize(line.len() + random.pick(&[1, 1, 2, 2, 7, 8, 9, 16]), b'0');
            return line;
        }
        1 => line.resize(line.len() + random.below(90_000), b'0'),
        2 => line.resize(line.len() + 8 * random.below(4), b'0'),
        _ => {}
    }
    line.append(&mut job_line(MEND, Profile::Small, random));
    line
}
