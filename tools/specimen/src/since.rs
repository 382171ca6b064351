//! What changed since another label: its glyphs by their names, at the same sizes.

use crate::{
    chain::Fitted,
    fill::Bitmap,
    findings::Judged,
    report::counted,
    specimen::{Cell, Outcome, Row, Specimen},
};
use std::collections::BTreeMap;

/// What is no longer as it was in another label.
pub struct Since<'a> {
    /// What the other label is called.
    pub name: String,
    /// The glyphs that are not as they were, by the number of their row and their size.
    changes: BTreeMap<(usize, i32), Change<'a>>,
    /// The glyphs that are no longer there.
    pub gone: Vec<&'a str>,
}

/// A glyph at a size that is not as it was.
pub struct Change<'a> {
    /// The number of its row.
    pub row: usize,
    pub cell: &'a Cell,
    /// What it was, where it was there.
    pub was: Option<&'a Cell>,
    pub what: String,
}

impl<'a> Since<'a> {
    /// What changed of these glyphs since others, which are called so.
    pub fn of(now: &'a Specimen, other: &'a Specimen, name: String) -> Self {
        let known = by_name(other);
        let mut changes = BTreeMap::new();
        for (row, glyph) in now.rows.iter().enumerate() {
            let was = known.get(glyph.name.as_str());
            for cell in &glyph.cells {
                let was = was.and_then(|was| was.cells.iter().find(|was| was.size == cell.size));
                let change = |what| Change {
                    row,
                    cell,
                    was,
                    what,
                };
                changes.extend(what(cell, was).map(|what| ((row, cell.size), change(what))));
            }
        }
        let is_there = by_name(now);
        let names = other.rows.iter().map(|row| row.name.as_str());
        Self {
            name,
            changes,
            gone: names.filter(|name| !is_there.contains_key(name)).collect(),
        }
    }

    /// What changed of the glyph of a row at a size, if something did.
    pub fn change(&self, row: usize, size: i32) -> Option<&Change<'a>> {
        self.changes.get(&(row, size))
    }

    /// All that changed.
    pub fn changes(&self) -> impl Iterator<Item = &Change<'a>> {
        self.changes.values()
    }
}

/// The glyphs of a label by their names, of those with one name the first.
fn by_name(specimen: &Specimen) -> BTreeMap<&str, &Row> {
    let rows = specimen.rows.iter().rev();
    rows.map(|row| (row.name.as_str(), row)).collect()
}

/// What changed of a glyph at a size, in words.
fn what(now: &Cell, was: Option<&Cell>) -> Option<String> {
    let Some(was) = was else {
        return Some("new".into());
    };
    match (&now.outcome, &was.outcome) {
        (Outcome::Fitted(fitted), Outcome::Fitted(other)) => {
            let advances = [was, now].map(|cell| cell.settings[1].advance);
            otherwise(fitted, other, advances)
        }
        (Outcome::Fitted(_), Outcome::Refused(..)) => Some("was refused".into()),
        (Outcome::Refused(..), Outcome::Fitted(_)) => Some("is refused".into()),
        (Outcome::Refused(now, _), Outcome::Refused(was, _)) => {
            let same = (&now.step, now.refusal) == (&was.step, was.refusal);
            (!same).then(|| "is refused otherwise".into())
        }
    }
}

/// What differs of a glyph that is fitted and was, with the advance widths before and now.
fn otherwise(
    (now, judged): &(Fitted, Judged),
    (was, other): &(Fitted, Judged),
    [before, advance]: [i32; 2],
) -> Option<String> {
    let places = |of: &Fitted| -> Vec<(i32, i32)> {
        let xs = of.widths.after.iter().copied();
        xs.zip(of.heights.after.iter().copied()).collect()
    };
    let (points, others) = (places(now), places(was));
    let told = [
        counted(differing(&judged.after, &other.after), "pixel"),
        match points.len() == others.len() {
            true => {
                let moved = points.iter().zip(&others).filter(|(a, b)| a != b);
                counted(moved.count(), "point")
            }
            false => Some(format!("{} → {} points", others.len(), points.len())),
        },
        (advance != before).then(|| format!("advance width {before} → {advance}")),
    ];
    let told: Vec<String> = told.into_iter().flatten().collect();
    (!told.is_empty()).then(|| told.join(", "))
}

/// How many pixels are black in one of two bitmaps alone.
fn differing(a: &Bitmap, b: &Bitmap) -> usize {
    let alone = |of: &Bitmap, other: &Bitmap| {
        of.pixels()
            .filter(|(x, y)| of.is_black(*x, *y) && !other.is_black(*x, *y))
            .count()
    };
    alone(a, b) + alone(b, a)
}
