//! Every glyph of a label at every size, fitted and judged.

use crate::{
    advance::{character_of, Advance, Setting},
    chain::{self, Fitted, Refused},
    findings::{judge, Finding, Judged},
    label::Glyph,
    progress::Progress,
    size::{at_scale, scale_of, units_per_em_of, PIXEL},
};
use khsaemudol::{Group, PathStep};
use std::collections::BTreeSet;

/// The units to the em where nothing tells.
const UNITS_PER_EM: i32 = 1_000;

/// The glyphs of a label at all sizes.
pub struct Specimen {
    pub sizes: Vec<i32>,
    pub rows: Vec<Row>,
}

/// A glyph at all sizes.
pub struct Row {
    pub name: String,
    /// The character that a text has it for.
    pub character: Option<char>,
    pub advance: Advance,
    /// The outline's points that are on the curve.
    pub on_curve: Vec<u8>,
    /// The last point of each of its contours.
    pub ends: Vec<u16>,
    pub cells: Vec<Cell>,
}

/// A glyph at a size.
pub struct Cell {
    pub size: i32,
    pub outcome: Outcome,
    /// Where it stands in a line of text, unfitted and fitted.
    pub settings: [Setting; 2],
}

/// What came of fitting.
pub enum Outcome {
    /// It was fitted.
    Fitted(Box<(Fitted, Judged)>),
    /// A call refused it; the path of its outline as it is, where that is none of what was refused.
    Refused(Refused, Option<Vec<PathStep>>),
}

impl Specimen {
    /// Fits and judges all glyphs at these sizes. Units per em are told where the label does not tell them.
    pub fn of(glyphs: &[Glyph], sizes: &[i32], units_per_em: Option<i32>) -> Result<Self, String> {
        let mut progress = Progress::of(glyphs.len());
        let mut rows = Vec::new();
        for glyph in glyphs {
            rows.push(Row::of(glyph, sizes, units_per_em)?);
            progress.step();
        }
        Ok(Self {
            sizes: sizes.to_vec(),
            rows,
        })
    }

    /// Fits and judges all glyphs as they are drawn, each at the size that its title tells: those of one name in a row are one glyph.
    pub fn drawn(glyphs: &[Glyph]) -> Result<Self, String> {
        let mut progress = Progress::of(glyphs.len());
        let mut rows = Vec::new();
        for drawn in glyphs.chunk_by(same_name) {
            rows.push(Row::drawn(drawn)?);
            drawn.iter().for_each(|_| progress.step());
        }
        let sizes: BTreeSet<i32> = rows
            .iter()
            .flat_map(|row| row.cells.iter().map(|cell| cell.size))
            .collect();
        Ok(Self {
            sizes: sizes.into_iter().collect(),
            rows,
        })
    }

    /// All glyphs at all sizes.
    pub fn cells(&self) -> impl Iterator<Item = (&Row, &Cell)> {
        self.rows
            .iter()
            .flat_map(|row| row.cells.iter().map(move |cell| (row, cell)))
    }

    /// Everything that was found.
    pub fn findings(&self) -> impl Iterator<Item = (&Row, &Cell, &Finding)> {
        self.cells().flat_map(|(row, cell)| {
            cell.findings()
                .iter()
                .map(move |finding| (row, cell, finding))
        })
    }
}

impl Row {
    /// A glyph at all sizes.
    fn of(glyph: &Glyph, sizes: &[i32], units_per_em: Option<i32>) -> Result<Self, String> {
        let linked_by = glyph.heights.linked_by.or(glyph.widths.linked_by);
        let scale = glyph.heights.building.scale;
        let units_per_em = linked_by
            .filter(|units| *units > 0)
            .or(units_per_em)
            .or_else(|| Some(units_per_em_of(size_of(&glyph.title)?, scale)))
            .filter(|units| *units > 0)
            .unwrap_or(UNITS_PER_EM);
        let cell = |size: &i32| {
            let glyph = at_scale(glyph, scale_of(*size, units_per_em))
                .map_err(|wrong| format!("{}: {wrong}", glyph.title))?;
            Ok(Cell::of(&glyph, *size))
        };
        let cells = sizes.iter().map(cell).collect::<Result<_, String>>()?;
        Ok(Self::with(glyph, cells))
    }

    /// A glyph that is drawn at each of its sizes.
    fn drawn(drawn: &[Glyph]) -> Result<Self, String> {
        let cell = |glyph: &Glyph| {
            let size = size_of(&glyph.title);
            let size = size.ok_or_else(|| format!("{}: the title tells no size", glyph.title))?;
            let cell = Cell::of(glyph, size);
            match cell.holds(glyph) {
                true => Ok(cell),
                false => Err(format!(
                    "{}: the points or the advance width of the file are others",
                    glyph.title
                )),
            }
        };
        let cells = drawn.iter().map(cell).collect::<Result<_, String>>()?;
        Ok(Self::with(&drawn[0], cells))
    }

    /// A glyph with its cells.
    fn with(glyph: &Glyph, cells: Vec<Cell>) -> Self {
        let name = name_of(&glyph.title);
        Self {
            name: name.into(),
            character: character_of(name),
            advance: Advance::of(glyph),
            on_curve: glyph.on_curve.clone(),
            ends: glyph.ends.clone(),
            cells,
        }
    }
}

impl Cell {
    /// Fits and judges a glyph at its size.
    fn of(glyph: &Glyph, size: i32) -> Self {
        let outcome = outcome(glyph);
        let (advance, building) = (Advance::of(glyph), &glyph.widths.building);
        let unfitted = Setting::unfitted(advance, building.scale);
        let fitted = match &outcome {
            Outcome::Fitted(fitted) if building.group == Group::Latin => {
                Setting::fitted(advance, building.scale, &fitted.0.widths.edges)
            }
            _ => unfitted,
        };
        Self {
            size,
            outcome,
            settings: [unfitted, fitted],
        }
    }

    /// What was found of it.
    pub fn findings(&self) -> &[Finding] {
        match &self.outcome {
            Outcome::Fitted(fitted) => &fitted.1.findings,
            Outcome::Refused(..) => &[],
        }
    }

    /// Whether it is fitted as the file has it, but for a shift to the side by whole pixels; where the file tells the advance width, shift and width are those of its setting.
    fn holds(&self, glyph: &Glyph) -> bool {
        let [xs, ys] = &glyph.held_to;
        let Outcome::Fitted(fitted) = &self.outcome else {
            return true;
        };
        let (widths, heights) = (&fitted.0.widths.after, &fitted.0.heights.after);
        let shifts = || xs.iter().zip(widths).map(|(x, fitted)| x - fitted);
        let shift = shifts().next().unwrap_or(0);
        let set = self.settings[1];
        let is_set_otherwise = glyph.advance.is_some_and(|advance| {
            shift != set.shift * PIXEL || advance.held_to.unwrap_or(set.advance) != set.advance
        });
        xs.is_empty()
            || ys == heights
                && xs.len() == widths.len()
                && shift % PIXEL == 0
                && !is_set_otherwise
                && shifts().all(|other| other == shift)
    }

    /// Why it was refused, if it was.
    pub fn refused(&self) -> Option<&Refused> {
        match &self.outcome {
            Outcome::Fitted(_) => None,
            Outcome::Refused(refused, _) => Some(refused),
        }
    }
}

/// Fits and judges a glyph.
fn outcome(glyph: &Glyph) -> Outcome {
    match chain::fit(glyph) {
        Ok(fitted) => {
            let judged = judge(&fitted);
            Outcome::Fitted(Box::new((fitted, judged)))
        }
        Err(refused) => Outcome::Refused(refused, chain::unfitted(glyph).ok()),
    }
}

/// Whether two glyphs have one name.
pub fn same_name(first: &Glyph, second: &Glyph) -> bool {
    name_of(&first.title) == name_of(&second.title)
}

/// A title without the size that it has in the file.
pub fn name_of(title: &str) -> &str {
    parts_of(title).map_or(title, |(name, _)| name)
}

/// The size that a title tells, in pixels to the em.
pub fn size_of(title: &str) -> Option<i32> {
    parts_of(title)?.1.parse().ok()
}

/// The name and the size of a title that has both.
fn parts_of(title: &str) -> Option<(&str, &str)> {
    title
        .strip_suffix(" pixels to the em")?
        .rsplit_once(", at ")
}
