//! The sample label: at its own sizes every path is the one that the program label wrote.

use crate::{
    chain::{fit, unfitted},
    label::read,
    size::at_scale,
};
use khsaemudol::{PathStep, Refusal};

pub const LABEL: &[u8] = include_bytes!("../../../../crates/label/stdin");
const WRITTEN: &str = include_str!("../../../../crates/label/stdout");

/// The paths that the program wrote, by title: the words of their steps, which stand on the lines behind their count that go in by four.
fn written() -> Vec<(&'static str, Vec<&'static str>)> {
    let glyphs = WRITTEN.split("\n# ").skip(1);
    let path = |glyph: &'static str| {
        let (_, behind) = glyph.split_once("\n  path ").unwrap_or_default();
        let steps = behind
            .lines()
            .skip(1)
            .take_while(|line| line.starts_with("    "));
        (
            glyph.lines().next().unwrap_or(""),
            steps.flat_map(str::split_whitespace).collect(),
        )
    };
    glyphs.map(path).collect()
}

/// The words of a path's steps.
fn words(path: &[PathStep]) -> Vec<String> {
    let step = |step: &PathStep| match step {
        PathStep::Move(to) => vec!["M".into(), to.x.to_string(), to.y.to_string()],
        PathStep::Line(to) => vec!["L".into(), to.x.to_string(), to.y.to_string()],
        PathStep::Curve(by, to) => vec![
            "Q".into(),
            by.x.to_string(),
            by.y.to_string(),
            to.x.to_string(),
            to.y.to_string(),
        ],
        PathStep::Close => vec!["Z".into()],
    };
    path.iter().flat_map(step).collect()
}

#[test]
fn paths_are_those_of_the_program() {
    let glyphs = read(LABEL).expect("the sample label can be read");
    let written = written();
    assert_eq!((glyphs.len(), written.len()), (15, 15));
    for (glyph, (title, path)) in glyphs.iter().zip(written) {
        assert_eq!(glyph.title, title);
        let own = at_scale(glyph, glyph.heights.building.scale).expect("its own scale");
        match fit(&own) {
            Ok(fitted) => assert_eq!(words(&fitted.after), path, "{title}"),
            Err(refused) => {
                assert_eq!(
                    (refused.step.as_str(), refused.refusal),
                    ("building, heights", Refusal::BadIndex)
                );
                assert!(path.is_empty() && unfitted(&own).is_ok(), "{title}");
            }
        }
    }
}

#[test]
fn what_is_no_label_is_told_by_line() {
    let wrong = |file: &str| read(file.as_bytes()).err().expect("no label");
    assert_eq!(wrong(""), "there is no glyph in it");
    assert_eq!(
        wrong("\n0000000F\n"),
        "line 2: a title, which begins with # and a space, is missing"
    );
    assert_eq!(
        wrong("# m\n0000000F\n"),
        "line 2: the job of building, 00000069, is missing"
    );
    assert_eq!(
        wrong("# m\n0000006900000001\n"),
        "line 2: the words are not those of such a job"
    );
    // the sample label whose first job has a word more
    let sample = String::from_utf8_lossy(LABEL);
    let longer = sample.replacen("\n0000007A", "00000000\n0000007A", 1);
    assert_eq!(
        wrong(&longer),
        "line 3: the words are not those of such a job"
    );
}
