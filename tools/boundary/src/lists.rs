//! Lists of records and lists of points, which some functions take together.

use crate::{
    cases::{damage_word, lengthen, WORDS},
    function::Record,
    memory::{Memory, Side, SHUT_WORDS},
    model::{is_record, NOT_WORDS},
};
use oracle::{
    generate::Random,
    limits::NUMBERS,
    refusals::{refuse, Answer},
};

/// A list of records: its words, or how many they are of a list that cannot be read.
#[derive(Clone, Debug, PartialEq)]
pub enum Words {
    Open(Vec<i32>),
    Shut(usize),
}

impl Words {
    /// The length of the list.
    pub fn len(&self) -> usize {
        match self {
            Self::Open(words) => words.len(),
            Self::Shut(len) => *len,
        }
    }

    /// The words of a list that can be read.
    pub fn open(&self) -> &[i32] {
        match self {
            Self::Open(words) => words,
            Self::Shut(_) => &[],
        }
    }

    /// Damages the list in one way: a word, its length, or that it can be read.
    pub fn damage(&mut self, record: &Record, random: &mut Random) {
        let Self::Open(words) = self else {
            return;
        };
        match random.below(6) {
            0..=3 => damage_word(words, random),
            4 => {
                let len = words.len() + random.below(2 * record.words);
                words.resize(len.saturating_sub(record.words), random.pick(&WORDS));
            }
            _ => {
                let least = (record.most + 1) * record.words;
                let len = least + random.below(SHUT_WORDS - least);
                *self = Self::Shut(if random.coin() {
                    len / record.words * record.words
                } else {
                    len
                });
            }
        }
    }

    /// Lends the list.
    pub fn lend(&self, memory: &mut Memory, side: Side) -> *const i32 {
        match self {
            Self::Open(words) => memory.lend(words, side),
            Self::Shut(_) => memory.shut(),
        }
    }

    /// What a lent list holds now.
    pub fn held(&self, memory: &Memory) -> Self {
        match self {
            Self::Open(_) => Self::Open(memory.held().to_vec()),
            Self::Shut(len) => Self::Shut(*len),
        }
    }
}

/// The answers in front of an order of refusals, of lists of records: those of `model`; hands back whether every word is one of its field's values.
pub fn answer_to_lists(lists: &[(&Words, &Record)]) -> Answer<bool> {
    let is_whole = |(words, record): &(&Words, &Record)| words.len().is_multiple_of(record.words);
    refuse(NOT_WORDS.into(), !lists.iter().all(is_whole))?;
    let fits = |(words, record): &(&Words, &Record)| words.len() / record.words <= record.most;
    refuse(1, !lists.iter().all(fits))?;
    let are_records = |(words, record): &(&Words, &Record)| {
        let mut records = words.open().chunks(record.words);
        records.all(|words| is_record(record, words))
    };
    Ok(lists.iter().all(are_records))
}

/// Appends a list of records to a job.
pub fn push_records(job: &mut Vec<i32>, words: &Words, record: &Record) {
    job.push((words.len() / record.words) as i32);
    job.extend(words.open());
}

/// Appends a list of points to a job; one that is longer than a job's is too long all the same.
pub fn push_list<T: Copy + Into<i32>>(job: &mut Vec<i32>, list: &[T]) {
    job.push(list.len().min(NUMBERS) as i32);
    job.extend(list.iter().take(NUMBERS).map(|number| (*number).into()));
}

/// The records at the head of a job's words, of which some are made up where there are too many, and what stands behind them.
pub fn records<'a>(words: &'a [i32], record: &Record, random: &mut Random) -> (Words, &'a [i32]) {
    let count = words[0] as usize;
    let (table, rest) = words[1..].split_at(count.min(record.most) * record.words);
    let mut table = table.to_vec();
    if count > record.most {
        lengthen(record, &mut table, random);
    }
    (Words::Open(table), rest)
}
