//! What was found, for programs: an array of objects, each on a line of its own, all with the same names in them.

use crate::{
    chain::name,
    findings::Finding,
    place::Place,
    report::{guard, guard_alone, refusals},
    since::Since,
    specimen::{Outcome, Specimen},
};

/// An object of the array.
struct Told<'a> {
    glyph: &'a str,
    size: Option<i32>,
    kind: &'static str,
    what: String,
    finding: Option<&'a Finding>,
    guard: Option<String>,
}

/// All that the check tells, in its order.
pub fn text(specimen: &Specimen, since: Option<&Since>) -> String {
    let objects = found(specimen).chain(changed(specimen, since));
    let objects: Vec<String> = objects.map(|told| told.object()).collect();
    match objects.is_empty() {
        true => "[]\n".into(),
        false => format!("[\n{}\n]\n", objects.join(",\n")),
    }
}

/// What was found, what the guard alone says, and what was refused.
fn found(specimen: &Specimen) -> impl Iterator<Item = Told<'_>> {
    let findings = specimen.findings().map(|(row, cell, finding)| Told {
        glyph: &row.name,
        size: Some(cell.size),
        kind: "finding",
        what: finding.what.to_string(),
        finding: Some(finding),
        guard: match &cell.outcome {
            Outcome::Fitted(fitted) => guard(&fitted.0),
            Outcome::Refused(..) => None,
        },
    });
    let guards = guard_alone(specimen).map(|(row, cell, lost)| Told {
        glyph: &row.name,
        size: Some(cell.size),
        kind: "guard",
        what: "the guard alone".into(),
        finding: None,
        guard: Some(lost),
    });
    let refused = specimen.rows.iter().flat_map(|row| {
        refusals(row).flat_map(move |(cells, refused)| {
            cells.iter().map(move |cell| Told {
                glyph: &row.name,
                size: Some(cell.size),
                kind: "refused",
                what: format!("{}, {}", refused.step, refused.refusal),
                finding: None,
                guard: None,
            })
        })
    });
    findings.chain(guards).chain(refused)
}

/// What changed since another label.
fn changed<'a>(
    specimen: &'a Specimen,
    since: Option<&'a Since>,
) -> impl Iterator<Item = Told<'a>> + 'a {
    let plain = |glyph, size, kind, what| Told {
        glyph,
        size,
        kind,
        what,
        finding: None,
        guard: None,
    };
    since.into_iter().flat_map(move |since| {
        let changes = since.changes().map(move |change| {
            let row = &specimen.rows[change.row];
            plain(
                &row.name,
                Some(change.cell.size),
                "changed",
                change.what.clone(),
            )
        });
        let gone = since
            .gone
            .iter()
            .map(move |name| plain(name, None, "gone", "no longer there".into()));
        changes.chain(gone)
    })
}

impl Told<'_> {
    fn object(&self) -> String {
        let null = || "null".to_string();
        let unplaced = self.finding.map_or(Vec::new(), |finding| {
            let edge = |(axis, edge): &(_, usize)| {
                format!(r#"{{"axis": "{}", "edge": {edge}}}"#, name(*axis))
            };
            finding.unplaced.iter().map(edge).collect()
        });
        format!(
            r#"  {{"glyph": {}, "size": {}, "kind": "{}", "what": {}, "place": {}, "unplaced": [{}], "guard": {}}}"#,
            string(self.glyph),
            self.size.map_or_else(null, |size| size.to_string()),
            self.kind,
            string(&self.what),
            self.finding
                .map_or_else(null, |finding| place(&finding.place)),
            unplaced.join(", "),
            self.guard.as_deref().map_or_else(null, string)
        )
    }
}

/// A place: left, bottom, right and top.
fn place(place: &Place) -> String {
    let Place { xs, ys } = place.ordered();
    format!(
        "[{}, {}, {}, {}]",
        xs.start(),
        ys.start(),
        xs.end(),
        ys.end()
    )
}

/// A text as JSON has it.
fn string(text: &str) -> String {
    let letter = |letter: char| match letter {
        '"' | '\\' => format!("\\{letter}"),
        control if control < ' ' => format!("\\u{:04x}", u32::from(control)),
        other => other.to_string(),
    };
    format!("\"{}\"", text.chars().map(letter).collect::<String>())
}

#[cfg(test)]
mod tests {
    use super::string;

    #[test]
    fn texts_mean_themselves() {
        assert_eq!(string("digit 4"), r#""digit 4""#);
        assert_eq!(
            string("U+0022 \" and \\, 円\t"),
            r#""U+0022 \" and \\, 円\u0009""#
        );
    }
}
