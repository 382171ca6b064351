//! What the guards are worth on the glyphs of fonts: which glyphs pixels show damaged, which of them each guard names, and what is left where the first way of showing is chosen that a guard lets pass.

use crate::{
    chain::{self, Fitted, LEAST_GAP},
    fill::Bitmap,
    findings::{changes, Shape, What},
    label::Glyph,
    pieces::Count,
    specimen::{name_of, same_name, size_of},
};
use khsaemudol::{count_shown, lost_gaps, Outline, PathStep};
use std::ops::RangeInclusive;

/// The sizes that are measured, in pixels to the em; a label has one more, for the way a pixel larger.
pub const SIZES: RangeInclusive<i32> = 9..=16;

/// A way of showing a glyph.
#[derive(Clone, Copy, Debug, PartialEq, Eq)]
pub enum Way {
    Snap,
    Keep,
    Unfitted,
    Larger,
}

impl Way {
    /// All ways, in the order in which they are chosen.
    pub const ALL: [Self; 4] = [Self::Snap, Self::Keep, Self::Unfitted, Self::Larger];
}

/// What pixels show of a damaged glyph: white is lost, or else black is.
#[derive(Clone, Copy, Debug, PartialEq, Eq)]
pub enum Damage {
    Closed,
    Broken,
}

/// A guard.
#[derive(Clone, Copy, Debug, PartialEq, Eq)]
pub enum Guard {
    /// `khs_lost_gaps` with half a pixel, of edges with a link.
    Linked,
    /// The same of all edges.
    All,
    /// `khs_count_shown`, held to the number of the outline.
    Shown,
}

impl Guard {
    pub const ALL: [Self; 3] = [Self::Linked, Self::All, Self::Shown];
}

/// A glyph shown in a way.
pub struct View {
    pub damage: Option<Damage>,
    /// The guards that name it, in the order of `Guard::ALL`.
    pub named: [bool; 3],
    pub pixels: Bitmap,
}

impl View {
    pub fn is_named(&self, guard: Guard) -> bool {
        self.named[guard as usize]
    }
}

/// A glyph at a size, shown in all ways.
pub struct Load {
    pub font: String,
    pub name: String,
    pub size: i32,
    /// The pieces and holes of its outline.
    pub outline: Count,
    pub views: [View; 4],
}

impl Load {
    /// The glyph in a way.
    pub fn view(&self, way: Way) -> &View {
        &self.views[way as usize]
    }

    /// Whether it is a digit: labels of fonts name glyphs by their characters.
    pub fn is_digit(&self) -> bool {
        ('0'..='9').any(|digit| self.name == format!("U+{:04X} {digit}", digit as u32))
    }
}

/// All glyphs of a font's label, in which each is drawn at every size by Snap, and how many of them are refused.
pub fn loads(font: &str, glyphs: &[Glyph]) -> (Vec<Load>, usize) {
    let (mut loads, mut refused) = (Vec::new(), 0);
    for drawn in glyphs.chunk_by(same_name) {
        let Some(outline) = drawn.last().and_then(outline_of) else {
            refused += drawn.len();
            continue;
        };
        for pair in drawn.windows(2) {
            let size = size_of(&pair[0].title).filter(|size| SIZES.contains(size));
            let Some(size) = size else { continue };
            let Some(views) = views(pair, outline) else {
                refused += 1;
                continue;
            };
            loads.push(Load {
                font: font.into(),
                name: name_of(&pair[0].title).into(),
                size,
                outline,
                views,
            });
        }
    }
    (loads, refused)
}

/// The pieces and holes of a glyph's outline, at its size.
fn outline_of(glyph: &Glyph) -> Option<Count> {
    Some(Shape::of_outline(&chain::unfitted(glyph).ok()?).count())
}

/// A glyph in all ways, by its drawings at a size and at the next.
fn views(pair: &[Glyph], outline: Count) -> Option<[View; 4]> {
    let [glyph, larger] = pair else { return None };
    Some([
        fitted(glyph, outline)?,
        fitted(&by_keep(glyph), outline)?,
        unfitted(glyph, outline)?,
        fitted(larger, outline)?,
    ])
}

/// The same with widths as they are.
fn by_keep(glyph: &Glyph) -> Glyph {
    let mut glyph = glyph.clone();
    glyph.heights.standards = None;
    glyph.widths.standards = None;
    glyph
}

/// A glyph that is fitted, or none where it is refused.
fn fitted(glyph: &Glyph, outline: Count) -> Option<View> {
    let fitted = chain::fit(glyph).ok()?;
    let (xs, ys) = (&fitted.widths.after, &fitted.heights.after);
    let named = [
        loses(&fitted, true)?,
        loses(&fitted, false)?,
        differs(glyph, xs, ys, outline)?,
    ];
    Some(view(&fitted.after, outline, named))
}

/// A glyph that is not fitted: no guard on edges can be asked.
fn unfitted(glyph: &Glyph, outline: Count) -> Option<View> {
    let (xs, ys) = (&glyph.widths.originals, &glyph.heights.originals);
    let named = [false, false, differs(glyph, xs, ys, outline)?];
    Some(view(&chain::unfitted(glyph).ok()?, outline, named))
}

/// Whether a gap or a stem of either axis is lost.
fn loses(fitted: &Fitted, linked: bool) -> Option<bool> {
    let axis = |edges: &[khsaemudol::Edge]| {
        let lost = lost_gaps(edges, LEAST_GAP, linked).ok()?;
        Some(lost.gaps + lost.stems > 0)
    };
    Some(axis(&fitted.heights.edges)? | axis(&fitted.widths.edges)?)
}

/// Whether pixels have another number than the outline.
fn differs(glyph: &Glyph, xs: &[i32], ys: &[i32], outline: Count) -> Option<bool> {
    let shape = Outline {
        xs,
        ys,
        marks: &glyph.on_curve,
        ends: &glyph.ends,
    };
    Some(count_shown(&shape, 1).ok()?.euler != outline.euler())
}

/// What pixels show of a path, beside the pieces and holes that it should have.
fn view(path: &[PathStep], outline: Count, named: [bool; 3]) -> View {
    let (fine, coarse) = (Shape::of_outline(path), Shape::of_pixels(path));
    let found = changes(&fine, &coarse);
    let closed = |what: &What| {
        use What::{CounterCloses, CounterDivides, GapCloses, PiecesMerge};
        matches!(
            what,
            CounterCloses | CounterDivides | GapCloses | PiecesMerge
        )
    };
    let damage = if found.iter().any(|(what, _)| closed(what)) {
        Some(Damage::Closed)
    } else if !found.is_empty() || fine.count() != outline {
        Some(Damage::Broken)
    } else {
        None
    };
    View {
        damage,
        named,
        pixels: coarse.bitmap,
    }
}

/// The first way of showing a glyph that passes, if one does.
pub fn choice(load: &Load, passes: impl Fn(&View) -> bool) -> Option<Way> {
    Way::ALL.into_iter().find(|way| passes(load.view(*way)))
}
