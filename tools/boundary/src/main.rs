//! The C boundary compared: `boundary COUNT SEED` passes damaged words, lengths and named edges to every function of the static library, and compares the answer and every word
//! lent with the oracle behind the order of answers that `model` has. Every list has a guard on one side and memory that is shut on the other. A case with an empty list is
//! run twice: every such list is NULL, and then a pointer to memory that is shut.

mod cases;
mod catalogues;
mod drag;
mod edge_points;
mod ffi;
mod fit;
mod frames;
mod function;
mod lists;
mod memory;
mod model;
mod moving;
mod path;
mod points;
mod references;
mod shown;
mod strong;
mod tally;

use edge_points::EdgePoints;
use fit::FitAxis;
use function::{Function, Given, Memories, Outcome, FUNCTIONS};
use memory::{nulls, with_and_without, Side};
use oracle::generate::Random;
use std::{fmt::Display, process::ExitCode};
use strong::StrongPoints;
use tally::{Tally, ANSWERS};

/// Compares, and tells how many cases agreed.
fn main() -> ExitCode {
    let words: Vec<String> = std::env::args().skip(1).collect();
    let (Some(count), Some(seed)) = (number(words.first()), number(words.get(1))) else {
        eprintln!("usage: boundary COUNT SEED");
        return ExitCode::from(2);
    };
    tally::watch();
    let random = &mut Random::new(seed);
    let mut tallies = points::middles(count as usize, random);
    tallies.push(points::weak(count as usize, random));
    tallies.extend(path::paths(count as usize, random));
    tallies.push(shown::shown(count as usize, random));
    tallies.push(catalogues::catalogues(count as usize, random));
    tallies.extend(references::references(count as usize, random));
    tallies.push(drag::drags(count as usize, random));
    tallies.extend(frames::frames(count as usize, random));
    tallies.push(moving::compare::<EdgePoints, 5>(count as usize, random));
    tallies.push(moving::compare::<StrongPoints, 6>(count as usize, random));
    tallies.push(moving::compare::<FitAxis, 11>(count as usize, random));
    for function in &FUNCTIONS {
        tallies.push(compare(function, count as usize, random));
    }
    tell(&tallies)
}

/// A number of the command line.
fn number(word: Option<&String>) -> Option<u64> {
    word.and_then(|word| word.parse().ok())
}

/// Compares a function on so many random cases, and on the small ones.
fn compare(function: &Function, count: usize, random: &mut Random) -> Tally {
    let mut memories = Memories::new();
    let mut tally = Tally::new(function.name);
    let mut compare = |given: &Given, side: Side| {
        let expected = model::expected(function, given);
        with_and_without(side, |side| {
            tally.begin();
            let outcome = function::run(function, given, &mut memories, side);
            let same = outcome.as_ref() == Some(&expected);
            tally.count(expected.answer, same, || {
                let found = outcome.map_or("a guard was written".into(), |outcome| {
                    difference(&outcome, &expected)
                });
                format!("{found}; given {given:?}")
            });
        });
    };
    for given in cases::small(function, random) {
        compare(&given, Side::Back);
    }
    for _ in 0..count {
        let given = cases::random(function, random);
        compare(&given, random.pick(&[Side::Front, Side::Back]));
    }
    tally
}

/// What differs first.
fn difference(outcome: &Outcome, expected: &Outcome) -> String {
    if outcome.answer != expected.answer {
        return format!("answer {}, and not {}", outcome.answer, expected.answer);
    }
    let (lent, wanted) = (&outcome.lent, &expected.lent);
    let lists = [
        ("table", &lent.table, &wanted.table),
        ("room", &lent.room, &wanted.room),
        ("altered", &lent.altered, &wanted.altered),
        ("standards", &lent.standards, &wanted.standards),
        ("places", &lent.places, &wanted.places),
    ];
    for (name, lent, wanted) in lists {
        if let Some(ix) = (0..wanted.len()).find(|ix| lent.get(*ix) != wanted.get(*ix)) {
            return format!(
                "word {ix} of {name}: {:?}, and not {}",
                lent.get(ix),
                wanted[ix]
            );
        }
    }
    "lists of another length".into()
}

/// Prints the counts, by function and answer.
fn tell(tallies: &[Tally]) -> ExitCode {
    let answers = columns(ANSWERS);
    println!("{:<28}{:>10}{answers}  different", "function", "cases");
    for tally in tallies {
        let answers = columns(tally.answers);
        println!(
            "{:<28}{:>10}{answers}{:>11}",
            tally.name, tally.cases, tally.different
        );
    }
    let cases: usize = tallies.iter().map(|tally| tally.cases).sum();
    let different: usize = tallies.iter().map(|tally| tally.different).sum();
    let nulls = nulls();
    println!("{cases} cases, {nulls} empty lists as NULL, {different} different");
    ExitCode::from(u8::from(different > 0))
}

/// Numbers below each other.
fn columns<T: Display, const N: usize>(numbers: [T; N]) -> String {
    numbers.map(|number| format!("{number:>9}")).concat()
}
