//! The specimen page of a label, the check of its glyphs, and the list of their numbers. `specimen SAMPLE PAGE ..` is ./specimen with the sample label and the usual page in front of its words.

mod advance;
mod chain;
mod drag;
mod fill;
mod findings;
mod guards;
mod guards_text;
mod json;
mod label;
mod line;
mod list;
mod numbers;
mod packed;
mod page;
mod pieces;
mod place;
mod progress;
mod report;
mod since;
mod size;
mod specimen;
mod stems;
mod svg;
mod symbols;
mod tables;
#[cfg(test)]
mod tests;
/// Words as text, as the oracle reads them.
#[allow(dead_code)]
#[path = "../../../oracle/src/text.rs"]
mod text;

use label::Glyph;
use since::Since;
use specimen::Specimen;
use std::{
    env,
    ffi::OsString,
    fs,
    io::{self, Write},
    ops::RangeInclusive,
    path::{Path, PathBuf},
    process::ExitCode,
};

const USAGE: &str =
    "usage: ./specimen [--check [--json] | --numbers] [--sizes N,N,.. | --drawn] [--em N] [--since FILE] [-o PAGE] [FILE]
sizes are 1 to 255 pixels to the em, --em is 16 to 16384 units";

/// The sizes, in pixels to the em.
const SIZES: [i32; 4] = [11, 12, 16, 24];

/// The sizes that can be asked for: at the largest the check fills an em of 4,080 times 4,080 pixels.
const ASKED_SIZES: RangeInclusive<i32> = 1..=255;

/// The units to the em that can be asked for: those of a font.
const ASKED_UNITS: RangeInclusive<i32> = 16..=16_384;

/// What is asked for.
struct Asked {
    label: PathBuf,
    /// What the page calls the label.
    name: String,
    page: PathBuf,
    check: bool,
    json: bool,
    numbers: bool,
    /// The label that is told what changed since.
    since: Option<PathBuf>,
    sizes: Vec<i32>,
    /// Whether each glyph is taken at the size that its title tells, and at no other.
    drawn: bool,
    /// The units to the em where the label does not tell.
    units_per_em: Option<i32>,
}

impl Asked {
    /// What the words behind the sample label and the usual page ask for.
    fn of(mut words: impl Iterator<Item = OsString>) -> Option<Self> {
        let (sample, mut page) = (PathBuf::from(words.next()?), PathBuf::from(words.next()?));
        let (mut label, mut since) = (None, None);
        let (mut check, mut json, mut numbers, mut drawn) = (false, false, false, false);
        let (mut sizes, mut units_per_em) = (SIZES.to_vec(), None);
        while let Some(word) = words.next() {
            match word.to_str() {
                Some("--check") => check = true,
                Some("--json") => json = true,
                Some("--numbers") => numbers = true,
                Some("--drawn") => drawn = true,
                Some("--sizes") => sizes = sizes_of(words.next()?.to_str()?)?,
                Some("--em") => units_per_em = Some(number(words.next()?.to_str()?, ASKED_UNITS)?),
                Some("--since") => since = Some(words.next()?.into()),
                Some("-o") => page = words.next()?.into(),
                Some(other) if other.starts_with('-') => return None,
                _ if label.is_some() => return None,
                _ => label = Some(PathBuf::from(word)),
            }
        }
        if check && numbers || json && !check {
            return None;
        }
        Some(Self {
            name: label.as_deref().map_or("the sample label".into(), name_of),
            label: label.unwrap_or(sample),
            page,
            check,
            json,
            numbers,
            since,
            sizes,
            drawn,
            units_per_em,
        })
    }
}

/// What a page calls a file.
fn name_of(path: &Path) -> String {
    path.file_name()
        .unwrap_or_default()
        .to_string_lossy()
        .into()
}

/// Sizes with commas between them, in rising order, each once.
fn sizes_of(text: &str) -> Option<Vec<i32>> {
    let size = |size: &str| number(size, ASKED_SIZES);
    let mut sizes: Vec<i32> = text.split(',').map(size).collect::<Option<_>>()?;
    sizes.sort_unstable();
    sizes.dedup();
    Some(sizes)
}

/// A number within limits.
fn number(text: &str, limits: RangeInclusive<i32>) -> Option<i32> {
    text.parse().ok().filter(|number| limits.contains(number))
}

/// Writes the page, checks, or lists numbers; status 1 where the check finds something, 2 where it could not be done.
fn main() -> ExitCode {
    let words: Vec<OsString> = env::args_os().skip(1).collect();
    if let Some(labels) = words.strip_prefix(&[OsString::from("--guards")]) {
        return ended(tell_guards(labels).map(|()| false));
    }
    let Some(asked) = Asked::of(words.into_iter()) else {
        eprintln!("{USAGE}");
        return ExitCode::from(2);
    };
    ended(run(&asked).map(|found| found && asked.check))
}

/// The status: 1 where something was found that is asked for, 2 where something is wrong, which is told.
fn ended(found: Result<bool, String>) -> ExitCode {
    found.map_or_else(
        |wrong| {
            eprintln!("specimen: {wrong}");
            ExitCode::from(2)
        },
        |found| ExitCode::from(u8::from(found)),
    )
}

/// What is wrong, with the file that it is about.
fn about(path: &Path, text: String) -> String {
    format!("{}: {text}", path.display())
}

/// The glyphs of a label file.
fn glyphs_of(path: &Path) -> Result<Vec<Glyph>, String> {
    let file = fs::read(path).map_err(|wrong| about(path, wrong.to_string()))?;
    label::read(&file).map_err(|wrong| about(path, wrong))
}

/// Prints what has to be told.
fn print(text: &str) -> Result<(), String> {
    io::stdout()
        .write_all(text.as_bytes())
        .map_err(|wrong| format!("standard output: {wrong}"))
}

/// Measures what the guards are worth on labels, each of a font, whose name its file has, and prints docs/GUARD.md.
fn tell_guards(labels: &[OsString]) -> Result<(), String> {
    let (mut loads, mut fonts, mut refused) = (Vec::new(), Vec::new(), 0);
    for path in labels.iter().map(Path::new) {
        let font = path.file_name().unwrap_or_default().to_string_lossy();
        let (more, without) = guards::loads(&font, &glyphs_of(path)?);
        eprintln!("specimen: {font}, {} glyphs at a size", more.len());
        loads.extend(more);
        refused += without;
        fonts.push(font.into_owned());
    }
    print(&guards_text::text(&loads, &fonts, refused))
}

/// The glyphs of a label file, fitted and judged as it is asked for.
fn specimen_of(path: &Path, asked: &Asked) -> Result<Specimen, String> {
    let glyphs = glyphs_of(path)?;
    let specimen = if asked.drawn {
        Specimen::drawn(&glyphs)
    } else {
        Specimen::of(&glyphs, &asked.sizes, asked.units_per_em)
    };
    specimen.map_err(|wrong| about(path, wrong))
}

/// Does what is asked for, and tells whether something was found.
fn run(asked: &Asked) -> Result<bool, String> {
    let specimen = specimen_of(&asked.label, asked)?;
    let since = asked.since.as_deref();
    let other = since.map(|path| specimen_of(path, asked)).transpose()?;
    let since = since
        .zip(other.as_ref())
        .map(|(path, other)| Since::of(&specimen, other, name_of(path)));
    let since = since.as_ref();
    let told = if asked.json {
        json::text(&specimen, since)
    } else if asked.check {
        report::text(&specimen, since)
    } else if asked.numbers {
        list::text(&specimen)
    } else {
        fs::write(&asked.page, page::html(&specimen, since, &asked.name))
            .map_err(|wrong| about(&asked.page, wrong.to_string()))?;
        about(&asked.page, report::summary(&specimen, since)) + "\n"
    };
    print(&told)?;
    let found = specimen.findings().next().is_some();
    Ok(found)
}
