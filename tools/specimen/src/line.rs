//! A line of text that somebody types: the page sets the pixels of its glyphs side by side, at every size, as large as they are and enlarged.

use crate::{specimen::Specimen, svg::escaped};
use std::collections::BTreeSet;

/// How many characters are in the line before somebody types.
const MOST_CHARACTERS: usize = 24;

/// The line at all sizes, with the field to type it in.
pub fn line(specimen: &Specimen) -> String {
    let size = |size: &i32| {
        format!(
            r#"<div class="line" data-size="{size}"><span class="size">{size}</span><span class="set"></span></div>"#
        )
    };
    let sizes: String = specimen.sizes.iter().map(size).collect();
    format!(
        r#"<section class="text" aria-label="A line of text"><form><label>Text <input type="text" name="text" size="30" value="{}" spellcheck="false" autocomplete="off"></label><output name="missing"></output></form>
{sizes}<p class="note">At every size the pixels as large as those of the screen, and enlarged, with a line at each advance width. A glyph stands for its character, the first one that does, or by its name in braces.{}</p></section>"#,
        escaped(&first_text(specimen)),
        untold(specimen)
    )
}

/// The text before somebody types: the first characters of the label.
fn first_text(specimen: &Specimen) -> String {
    let mut seen = BTreeSet::new();
    let characters = specimen.rows.iter().filter_map(|row| row.character);
    characters
        .filter(|character| seen.insert(*character))
        .take(MOST_CHARACTERS)
        .collect()
}

/// What is said of advance widths that the label does not tell.
fn untold(specimen: &Specimen) -> String {
    let untold = specimen.rows.iter().filter(|row| !row.advance.is_told);
    match untold.count() {
        0 => String::new(),
        1 => " The label does not tell the advance width of a glyph: it has as much room on its right as on its left.".into(),
        count => format!(" The label does not tell the advance widths of {count} glyphs: these have as much room on their right as on their left."),
    }
}
