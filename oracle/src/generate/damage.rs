//! Good jobs, damaged.

use super::{job, Random};
use crate::{
    text,
    words::{encode, Words},
};

/// Words that stand at or beyond some field's values.
const WORDS: [i32; 20] = [
    -1,
    0,
    1,
    2,
    4,
    5,
    15,
    16,
    160,
    161,
    255,
    256,
    8_191,
    8_192,
    32_768,
    -32_769,
    65_535,
    65_536,
    i32::MIN,
    i32::MAX,
];

/// A damaged line.
pub fn line(call: usize, random: &mut Random) -> Vec<u8> {
    let small = random.below(4) > 0;
    let mut words = encode(&job(call, small, random));
    let marks = marks(&words);
    let choices = choices(&words);
    if !marks.is_empty() && random.once_in(8) {
        words.values[random.pick(&marks)] = random.pick(&[-1, 0, 9, 10, 12, 13]);
    } else if !choices.is_empty() && random.once_in(8) {
        words.values[random.pick(&choices)] = random.pick(&WORDS);
    } else if random.below(3) > 0 {
        damage_words(&mut words.values, random);
    } else {
        let mut line = text::write(&words.values).into_bytes();
        damage_text(&mut line, random);
        return line;
    }
    text::write(&words.values).into_bytes()
}

/// Where the marks of edges stand.
fn marks(words: &Words) -> Vec<usize> {
    let names = words.names.iter().enumerate();
    let marks = names.filter(|(_, name)| **name == "edge.mark");
    marks.map(|(ix, _)| ix).collect()
}

/// Where the choices of the guard, of edge points and of the m stand, and how many numbers a fit is told.
fn choices(words: &Words) -> Vec<usize> {
    const CHOICES: [&str; 5] = ["linked", "snap", "done alone", "lowercase m", "numbers"];
    let is_choice = |name: &str| CHOICES.contains(&name);
    let names = words.names.iter().enumerate();
    let choices = names.filter(|(_, name)| is_choice(name));
    choices.map(|(ix, _)| ix).collect()
}

/// Changes, cuts, appends or moves words.
fn damage_words(words: &mut Vec<i32>, random: &mut Random) {
    let at = random.below(words.len());
    match random.below(12) {
        0 => words.truncate(at),
        1 => words.push(random.pick(&WORDS)),
        2 => words.insert(at, random.pick(&WORDS)),
        3 => drop(words.remove(at)),
        4 => words[0] = random.between(-1, 33) + random.pick(&[0, 100]),
        5 => words.truncate(words.len() - 1),
        6 => words[at] = words[at].wrapping_add(random.pick(&[-1, 1])),
        7 => words[at] = random.bits() as i32,
        _ => words[at] = random.pick(&WORDS),
    }
}

/// Changes the characters of a line.
fn damage_text(line: &mut Vec<u8>, random: &mut Random) {
    let at = random.below(line.len());
    match random.below(9) {
        0 => line.truncate(at),
        1 => drop(line.remove(at)),
        2 => line.insert(at, b'0'),
        3 => line[at] = random.pick(b"gGxX@`/:.,-+ \t\0\x7F\xFF"),
        4 => *line = line.to_ascii_lowercase(),
        5 => line.push(b'\r'),
        6 => line.clear(),
        7 => line.insert(0, b' '),
        _ => line[at] = random.pick(b"0123456789ABCDEFabcdef"),
    }
}
