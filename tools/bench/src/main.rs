//! The port, compiled for this machine, as tools use it. `bench all` or `bench CALL..` times it and the given Rust side by side on the same inputs and counts
//! instructions; `bench answer` answers job lines by `jobs`, which asks the library's functions, `bench values` with the calls on tables by value, and `bench library` by
//! the library as its Rust wrapper calls it; `bench catalogue` times catalogues of outlines in one call, `bench references` alignment with remembered references,
//! `bench drag` one point dragged, `bench mend` and `bench pack` axes that are mended and made smaller, `bench shown` what is shown of the sample label's glyphs, `bench chain` the chain
//! of a glyph step by step, `bench fit` the same chain with each axis fitted in one call, and `bench freetype`, built with the feature of that name, FreeType's own routines beside both.

/// Where a glyph stands in a line, as the specimen page has it.
#[allow(dead_code)]
#[path = "../../specimen/src/advance.rs"]
mod advance;
mod answer;
mod axes;
mod by_edges;
mod cases;
mod catalogue;
mod chain;
mod count;
mod drag;
mod edges;
/// A glyph through the library's chain, as the specimen page has it.
#[allow(dead_code)]
#[path = "../../specimen/src/chain.rs"]
mod fitting;
#[cfg(feature = "freetype")]
mod freetype;
mod glyph;
/// A label file, as the specimen page reads it.
#[allow(dead_code)]
#[path = "../../specimen/src/label.rs"]
mod label;
mod library;
mod one_call;
mod outlines;
mod plot;
mod port;
mod records;
mod references;
mod segments;
mod shown;
/// A glyph at another size, as the specimen page has it.
#[allow(dead_code)]
#[path = "../../specimen/src/size.rs"]
mod size;
mod table;
mod time;

use axes::Work;
use oracle::text;
use std::{io, process::ExitCode};

/// Does what is named.
fn main() -> ExitCode {
    let words: Vec<String> = std::env::args().skip(1).collect();
    match words.iter().map(String::as_str).collect::<Vec<_>>()[..] {
        ["answer"] => return told(answer::run(port::answer)),
        ["values"] => return told(answer::run(port::answer_by_value)),
        ["library"] => return told(answer::run(library::answer)),
        ["counted", name, ix, side, copies] if cases::is_name(name) => {
            count::run(name, ix, side, copies);
        }
        ["all"] => {
            plot::write(&table::run(&cases::NAMES));
            println!();
            catalogue::run();
            println!();
            references::run();
            println!();
            drag::run();
            println!();
            axes::run(Work::Mend);
            println!();
            axes::run(Work::Pack);
            println!();
            shown::run();
            println!();
            chain::run();
            println!();
            chain::run_fit();
        }
        ["catalogue"] => catalogue::run(),
        ["references"] => references::run(),
        ["drag"] => drag::run(),
        ["mend"] => axes::run(Work::Mend),
        ["pack"] => axes::run(Work::Pack),
        ["shown"] => shown::run(),
        ["chain"] => {
            table::explain();
            chain::run();
        }
        ["fit"] => {
            table::explain();
            chain::run_fit();
        }
        #[cfg(feature = "freetype")]
        ["freetype"] => freetype::run(),
        ref names if !names.is_empty() && names.iter().all(|name| cases::NAMES.contains(name)) => {
            table::run(names);
        }
        _ => {
            eprintln!(
                "usage: bench answer | values | library | all | catalogue | references | drag | mend | pack | shown | chain | fit | freetype | {}",
                cases::NAMES.join(" | ")
            );
            return ExitCode::from(2);
        }
    }
    ExitCode::SUCCESS
}

/// The status of answering, whose error is printed.
fn told(result: io::Result<()>) -> ExitCode {
    match result {
        Ok(()) => ExitCode::SUCCESS,
        Err(error) => {
            eprintln!("bench: {error}");
            ExitCode::from(2)
        }
    }
}
