//! What was found, as text.

use crate::{
    chain::{name, Fitted, FittedAxis, Refused},
    findings::Finding,
    since::{Change, Since},
    size::PIXEL,
    specimen::{Cell, Outcome, Row, Specimen},
};
use khsaemudol::Dimension;

/// How many glyphs were fitted and refused, how much was found, and how many changed.
pub fn summary(specimen: &Specimen, since: Option<&Since>) -> String {
    let all = specimen.cells().count();
    let refused = specimen
        .cells()
        .filter(|(_, cell)| cell.refused().is_some())
        .count();
    let sizes: Vec<String> = specimen.sizes.iter().map(i32::to_string).collect();
    let (rows, sizes) = (specimen.rows.len(), sizes.join(", "));
    let glyphs = if rows == 1 { "glyph" } else { "glyphs" };
    let found = specimen.findings().count();
    let changed = since.map_or(String::new(), |since| {
        format!(", {} changed", since.changes().count() + since.gone.len())
    });
    format!(
        "{rows} {glyphs} at {sizes} pixels to the em: {} fitted, {refused} refused, {found} found{changed}",
        all - refused
    )
}

/// Everything that was found, with what the guard says of the same axes; behind it what the guard alone says, what was refused, and what changed.
pub fn text(specimen: &Specimen, since: Option<&Since>) -> String {
    let mut text = String::new();
    for (row, cell, finding) in specimen.findings() {
        let Outcome::Fitted(fitted) = &cell.outcome else {
            continue;
        };
        let (fitted, judged) = (&fitted.0, &fitted.1);
        let near = unplaced(finding).map_or("every edge at it is placed".into(), |edges| {
            format!("nothing placed {edges} at it")
        });
        let guard = guard(fitted).map_or("the guard finds nothing".into(), |lost| {
            format!("the guard: {lost}")
        });
        let counts = format!("{}, as pixels {}", judged.outline, judged.fitted);
        text += &format!(
            "{} at {}: {} ({counts}); {near}; {guard}\n",
            row.name, cell.size, finding.what
        );
    }
    for (row, cell, lost) in guard_alone(specimen) {
        text += &format!(
            "{} at {}: no finding; the guard: {lost}\n",
            row.name, cell.size
        );
    }
    for row in &specimen.rows {
        for (cells, refused) in refusals(row) {
            let sizes: Vec<String> = cells.iter().map(|cell| cell.size.to_string()).collect();
            let (step, refusal) = (&refused.step, refused.refusal);
            text += &format!("{} at {}: {step}, {refusal}\n", row.name, sizes.join(", "));
        }
    }
    text += &since.map_or(String::new(), |since| changes(specimen, since));
    text + &summary(specimen, since) + "\n"
}

/// What changed since another label, a line each.
fn changes(specimen: &Specimen, since: &Since) -> String {
    let change = |change: &Change| {
        let (row, size) = (&specimen.rows[change.row], change.cell.size);
        format!("{} at {size}: changed: {}\n", row.name, change.what)
    };
    let gone = since.gone.iter().map(|name| format!("{name}: gone\n"));
    since.changes().map(change).chain(gone).collect()
}

/// Whether something is said of a glyph at a size: a finding, the guard or a refusal.
pub fn is_listed(cell: &Cell) -> bool {
    match &cell.outcome {
        Outcome::Fitted(fitted) => !cell.findings().is_empty() || guard(&fitted.0).is_some(),
        Outcome::Refused(..) => true,
    }
}

/// The glyphs of which the guard says something and pixels do not.
pub fn guard_alone(specimen: &Specimen) -> impl Iterator<Item = (&Row, &Cell, String)> {
    specimen
        .cells()
        .filter_map(|(row, cell)| match &cell.outcome {
            Outcome::Fitted(fitted) if cell.findings().is_empty() => {
                Some((row, cell, guard(&fitted.0)?))
            }
            _ => None,
        })
}

/// The refusals of a glyph, each with its sizes, in a row as far as they are the same.
pub fn refusals(row: &Row) -> impl Iterator<Item = (&[Cell], &Refused)> {
    let same = |a: &Cell, b: &Cell| {
        a.refused().map(|of| (&of.step, of.refusal)) == b.refused().map(|of| (&of.step, of.refusal))
    };
    row.cells
        .chunk_by(same)
        .filter_map(|cells| Some((cells, cells[0].refused()?)))
}

/// The edges at a finding that nothing placed, where there are any.
pub fn unplaced(finding: &Finding) -> Option<String> {
    let of = |dimension: Dimension| {
        let on_axis = finding.unplaced.iter().filter(|(of, _)| *of == dimension);
        let edges: Vec<usize> = on_axis.map(|(_, edge)| *edge).collect();
        Some(format!(
            "{} of the {}",
            numbered("edge", &edges)?,
            name(dimension)
        ))
    };
    joined([of(Dimension::Vertical), of(Dimension::Horizontal)])
}

/// Things by their rising numbers, those that follow each other as a range, or none where there are none.
pub fn numbered(thing: &str, numbers: &[usize]) -> Option<String> {
    let mut ranges = Vec::new();
    for run in numbers.chunk_by(|a, b| a + 1 == *b) {
        match run {
            [first, _, .., last] => ranges.push(format!("{first} to {last}")),
            _ => ranges.extend(run.iter().map(usize::to_string)),
        }
    }
    let s = if numbers.len() == 1 { "" } else { "s" };
    (!numbers.is_empty()).then(|| format!("{thing}{s} {}", ranges.join(", ")))
}

/// Texts as one, as far as they are there.
pub fn joined(texts: [Option<String>; 2]) -> Option<String> {
    match texts {
        [Some(first), Some(second)] => Some(format!("{first} and {second}")),
        [first, second] => first.or(second),
    }
}

/// What the guard says of both axes, where it says something.
pub fn guard(fitted: &Fitted) -> Option<String> {
    joined([guard_of(&fitted.heights), guard_of(&fitted.widths)])
}

/// What the guard says of an axis, where it says something.
fn guard_of(axis: &FittedAxis) -> Option<String> {
    let lost = axis.guard;
    let pair = lost.first?;
    let (before, after) = (pixels(pair.before), pixels(pair.after));
    Some(format!(
        "{} of the {} lost, the first between edges {} and {}, from {before} to {after} pixels",
        joined([counted(lost.gaps, "gap"), counted(lost.stems, "stem")])?,
        name(axis.dimension),
        pair.first,
        pair.second
    ))
}

/// So many things, or none where there are none.
pub fn counted(count: usize, thing: &str) -> Option<String> {
    let s = if count == 1 { "" } else { "s" };
    (count > 0).then(|| format!("{count} {thing}{s}"))
}

/// Units in pixels and 64ths.
pub fn pixels(units: i32) -> String {
    match (units / PIXEL, units.abs() % PIXEL) {
        (whole, 0) => whole.to_string(),
        (0, _) => format!("{units}/64"),
        (whole, rest) => format!("{whole} {rest}/64"),
    }
}
