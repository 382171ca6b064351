//! Where glyphs stand in a line of text.

use super::label::LABEL;
use crate::{
    advance::{character_of, Advance, Setting},
    label::read,
    size::{scale_of, PIXEL},
    specimen::{Row, Specimen},
};
use khsaemudol::Edge;

/// An advance width that is told, in design units.
fn advance(units: i32, is_fixed: bool) -> Advance {
    Advance {
        units,
        is_fixed,
        is_told: true,
        held_to: None,
    }
}

/// An edge that was at a position and came to another, in units.
fn edge(was: i32, is: i32) -> Edge {
    let words = [0, was, is, 0, 0, 0, 0, -1, -1, 0, 0, 0];
    Edge::try_from(words).expect("the words of an edge")
}

#[test]
fn advances_are_read() {
    assert_eq!(Advance::told("500"), Some(advance(500, false)));
    assert_eq!(Advance::told("500 fixed"), Some(advance(500, true)));
    let held_to = Some(6);
    for (text, told) in [("500", advance(500, false)), ("9 fixed", advance(9, true))] {
        let told = Advance { held_to, ..told };
        assert_eq!(Advance::told(&format!("{text}, 6 pixels")), Some(told));
    }
    for wrong in [
        "",
        "-1",
        "32768",
        "x",
        "500  fixed",
        "500 wide",
        "fixed",
        "500, 6",
        "6 pixels",
    ] {
        assert_eq!(Advance::told(wrong), None, "{wrong}");
    }
}

#[test]
fn a_file_may_tell_an_advance_behind_a_title() {
    let sample = String::from_utf8_lossy(LABEL);
    let told = |line: &str| {
        let file = sample.replacen("to the em\n", &format!("to the em\n{line}\n"), 1);
        read(file.as_bytes()).map(|glyphs| glyphs[0].advance)
    };
    assert_eq!(told("# advance 512 fixed"), Ok(Some(advance(512, true))));
    let wrong = told("# advance wide").expect_err("no number");
    assert!(
        wrong.starts_with("line 3: an advance width is 0 to 32767"),
        "{wrong}"
    );
}

#[test]
fn names_tell_characters() {
    let told = [
        ("digit 3", Some('3')),
        ("円", Some('円')),
        ("U+0033 3", Some('3')),
        ("U+002C light comma", Some(',')),
        ("U+0020 ", Some(' ')),
        ("U+ZZ 7", Some('7')),
        ("light comma", None),
        ("", None),
    ];
    for (name, character) in told {
        assert_eq!(character_of(name), character, "{name}");
    }
}

#[test]
fn both_sides_go_with_their_edges() {
    // a pixel is 100 design units: an advance width of 600 is 6 pixels
    let scale = scale_of(10, 1_000);
    let set = |edges: &[Edge]| {
        let Setting { shift, advance: by } = Setting::fitted(advance(600, false), scale, edges);
        (shift, by)
    };
    let (left, right) = (PIXEL, 5 * PIXEL);
    assert_eq!(set(&[]), (0, 6));
    assert_eq!(set(&[edge(left, left)]), (0, 6));
    assert_eq!(set(&[edge(left, left), edge(right, right)]), (0, 6));
    // the glyph became a pixel wider on its right
    assert_eq!(set(&[edge(left, left), edge(right, right + PIXEL)]), (0, 7));
    // it went to the right, by less than half a pixel and by more
    assert_eq!(
        set(&[edge(left, left + 31), edge(right, right + 31)]),
        (0, 6)
    );
    assert_eq!(
        set(&[edge(left, left + 33), edge(right, right + 33)]),
        (-1, 6)
    );
    // a side without room keeps none, and a narrow one is not given up
    assert_eq!(set(&[edge(0, 0), edge(6 * PIXEL, 6 * PIXEL)]), (0, 6));
    assert_eq!(set(&[edge(20, 0), edge(6 * PIXEL - 20, 6 * PIXEL)]), (1, 8));
}

#[test]
fn what_is_fixed_does_not_change() {
    let scale = scale_of(10, 1_000);
    let edges = [edge(PIXEL, PIXEL), edge(5 * PIXEL, 7 * PIXEL)];
    let widths = [(600, true), (600, false), (0, false)]
        .map(|(units, fixed)| Setting::fitted(advance(units, fixed), scale, &edges).advance);
    assert_eq!(widths, [6, 8, 0]);
}

#[test]
fn a_glyph_without_an_advance_has_as_much_room_on_both_sides() {
    let glyphs = read(LABEL).expect("a label");
    let specimen = Specimen::of(&glyphs, &[12, 24], None).expect("two sizes");
    let is_digit = |row: &&Row| row.name.starts_with("digit");
    for row in specimen.rows.iter().filter(is_digit) {
        assert!(!row.advance.is_told);
        let unfitted = row.cells.iter().map(|cell| cell.settings[0].advance);
        assert_eq!(unfitted.collect::<Vec<_>>(), [6, 12], "{}", row.name);
    }
}
