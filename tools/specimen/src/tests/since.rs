//! What changed since another label.

use super::label::LABEL;
use crate::{
    label::{read, Glyph},
    report,
    since::Since,
    specimen::Specimen,
};

/// The glyphs of the sample label at 12 pixels to the em.
fn at_12(glyphs: &[Glyph]) -> Specimen {
    Specimen::of(glyphs, &[12], None).expect("a size")
}

/// What changed, as the check tells it, without its last line.
fn told(now: &[Glyph], other: &[Glyph]) -> Vec<String> {
    let (now, other) = (at_12(now), at_12(other));
    let text = report::text(&now, Some(&Since::of(&now, &other, "other".into())));
    let lines = text.lines().filter(|line| !line.contains("refused"));
    lines.map(String::from).collect()
}

#[test]
fn nothing_changed_since_the_same() {
    let glyphs = read(LABEL).expect("a label");
    assert_eq!(told(&glyphs, &glyphs), [""; 0]);
}

#[test]
fn a_zone_that_is_a_pixel_higher_changes_pixels_and_points() {
    let glyphs = read(LABEL).expect("a label");
    let mut other = glyphs.clone();
    for zone in &mut other[1].heights.zones {
        zone.fitted += if zone.position == 700 { 64 } else { 0 };
    }
    let lines = told(&glyphs, &other);
    assert_eq!(lines.len(), 1, "{lines:?}");
    assert!(
        lines[0].starts_with("digit 1 at 12: changed: ") && lines[0].contains(" pixels, "),
        "{lines:?}"
    );
}

#[test]
fn new_and_gone_glyphs_are_told() {
    let glyphs = read(LABEL).expect("a label");
    let lines = told(&glyphs[1..3], &glyphs[..2]);
    assert_eq!(lines, ["digit 2 at 12: changed: new", "digit 0: gone"]);
}

#[test]
fn what_is_refused_or_was_is_told() {
    let glyphs = read(LABEL).expect("a label");
    let (seven, damaged) = (7, glyphs.len() - 1);
    let renamed = |glyph: usize| Glyph {
        title: "seven".into(),
        ..glyphs[glyph].clone()
    };
    let changes = |now: usize, was: usize| {
        let (now, was) = (at_12(&[renamed(now)]), at_12(&[renamed(was)]));
        let since = Since::of(&now, &was, "other".into());
        let whats = since.changes().map(|change| change.what.clone());
        whats.collect::<Vec<_>>()
    };
    assert_eq!(changes(seven, damaged), ["was refused"]);
    assert_eq!(changes(damaged, seven), ["is refused"]);
    assert_eq!(changes(damaged, damaged), [""; 0]);
}
