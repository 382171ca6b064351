//! What a function over edges or segments has to do: the order of its answers, and behind it the oracle.
//!
//! 1. A length that is not of whole records, or a room of another length than its own: 255.
//! 2. A list too long: 1, before any of its words is read.
//! 3. A word that is none of its field's values: 255.
//! 4. Document 01's order. A named edge, and an anchor other than none, that is not below the list's length is refused by 3 at its place there, whatever its word is.
//!
//! A refused call writes nothing.

use crate::function::{
    takes_axis, Function, Given, Kind, Lent, Outcome, Record, ALTERED, BLUE, BOUNDS, BUILDING,
    EDGE, FITTED, GUARD, MENDING, PACKING,
};
use oracle::{answer, decode::decode};

/// The answer to lengths and words that are none.
pub const NOT_WORDS: u8 = 255;
/// The answer to a list that is too long.
const TOO_LONG: u8 = 1;
/// An index that is below no list's length.
const BEYOND: i32 = 65_535;
/// The most standards that a job can have: more than the width rule takes.
const STANDARDS: usize = 8_191;

/// What a function does.
pub fn expected(function: &Function, given: &Given) -> Outcome {
    let answer = answer_to_words(function, given);
    match answer {
        Some(answer) => Outcome {
            answer,
            lent: given.lent.clone(),
        },
        None => by_oracle(function, given),
    }
}

/// The answer in front of document 01's, where there is one.
fn answer_to_words(function: &Function, given: &Given) -> Option<u8> {
    let record = function.record;
    let whole = given.table_len().is_multiple_of(record.words);
    let room = given.lent.room.len();
    let roomy = match function.call {
        BUILDING => room == EDGE.most * EDGE.words,
        MENDING => room.is_multiple_of(EDGE.words) && given.lent.altered.len() == ALTERED,
        _ => room.is_multiple_of(EDGE.words),
    };
    if !whole || !roomy {
        Some(NOT_WORDS)
    } else if given.table_len() / record.words > record.most || room / EDGE.words > EDGE.most {
        Some(TOO_LONG)
    } else if !are_words(function, given) {
        Some(NOT_WORDS)
    } else {
        None
    }
}

/// Whether every word is one of its field's values.
fn are_words(function: &Function, given: &Given) -> bool {
    let record = function.record;
    let records = given.lent.table.chunks(record.words);
    let mut numbers = function.numbers.iter().zip(&given.numbers);
    let mut edges = given.lent.room.chunks(EDGE.words);
    let words = records.into_iter().all(|words| is_record(record, words))
        && (!takes_axis(function.call) || edges.all(|words| is_record(&EDGE, words)))
        && numbers.all(|(kind, number)| match kind {
            Kind::Choice => (0..=1).contains(number),
            Kind::Direction => (0..=4).contains(number),
            Kind::Count => (0..=65_535).contains(number),
            Kind::Named | Kind::Anchor | Kind::Free => true,
        });
    assert_eq!(
        words,
        decode(&job(function, given)).is_some(),
        "the oracle reads words otherwise"
    );
    words
}

/// Whether these words are a record's: an edge without a zone has 0 in its place.
pub fn is_record(record: &Record, words: &[i32]) -> bool {
    let mut fields = record.fields.iter().zip(words);
    let fits = fields.all(|((least, most), word)| (*least..=*most).contains(word));
    fits && (record.name != EDGE.name || words[BLUE] == 1 || words[FITTED] == 0)
}

/// The job that asks the oracle for the same.
fn job(function: &Function, given: &Given) -> Vec<i32> {
    let mut job = vec![function.call];
    job.push((given.lent.table.len() / function.record.words) as i32);
    job.extend(&given.lent.table);
    if function.call == BUILDING {
        job.push(0); // no old edges
    }
    if takes_axis(function.call) {
        job.push((given.lent.room.len() / EDGE.words) as i32);
        job.extend(&given.lent.room);
    }
    for (ix, (kind, number)) in function.numbers.iter().zip(&given.numbers).enumerate() {
        job.push(match kind {
            Kind::Named if !(0..BEYOND).contains(number) => BEYOND,
            Kind::Anchor if !(-1..BEYOND).contains(number) => BEYOND,
            _ => *number,
        });
        if function.rule == Some(ix) {
            let standards = &given.lent.standards;
            let standards = &standards[..standards.len().min(STANDARDS)];
            job.push(standards.len() as i32);
            job.extend(standards);
        }
    }
    job
}

/// What the oracle does.
fn by_oracle(function: &Function, given: &Given) -> Outcome {
    let job = decode(&job(function, given)).expect("the words are those of a job");
    let words = answer::answer(job).values;
    let answer = u8::try_from(words[0]).expect("answers are small");
    let lent = match answer {
        0 => changed(function, &given.lent, &words[1..]),
        _ => given.lent.clone(),
    };
    Outcome { answer, lent }
}

/// What everything lent holds after a call that was done, by the words behind the oracle's number.
fn changed(function: &Function, lent: &Lent, words: &[i32]) -> Lent {
    let mut lent = lent.clone();
    if function.call == BUILDING {
        let (segments, edges) = words.split_at(1 + lent.table.len());
        lent.table = segments[1..].to_vec();
        lent.room[..edges.len() - 1].copy_from_slice(&edges[1..]);
        lent.places = vec![edges[0]];
        return lent;
    }
    if takes_axis(function.call) {
        let kept = words[0] as usize * function.record.words;
        let (segments, words) = words.split_at(1 + kept);
        let (edges, behind) = words.split_at(1 + lent.room.len());
        lent.table = segments[1..].to_vec();
        lent.room = edges[1..].to_vec();
        match function.call {
            MENDING => {
                lent.places = vec![behind[0]];
                lent.altered[..behind.len() - 1].copy_from_slice(&behind[1..]);
            }
            PACKING => {
                lent.places = vec![segments[0]];
                lent.table.extend(&behind[1..]); // the places freed
            }
            _ => {}
        }
        return lent;
    }
    let (places, table) = words.split_at(function.places);
    lent.places = places.to_vec();
    if ![BOUNDS, GUARD].contains(&function.call) {
        lent.table = table[1..].to_vec();
    }
    lent
}
