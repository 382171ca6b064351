//! The lists on top of the page: what was found, and what changed.

use crate::{
    findings::{Finding, TIMES},
    page::small_pixels,
    report::{guard, refusals, unplaced},
    since::{Change, Since},
    specimen::{Cell, Outcome, Row, Specimen},
    svg::{escaped, runs},
};
use khsaemudol::Refusal;
use std::slice;

/// What was found, what the guard alone says, and what was refused.
pub fn found(specimen: &Specimen) -> String {
    let mut rows = String::new();
    for (number, row) in specimen.rows.iter().enumerate() {
        for cell in &row.cells {
            rows += &found_in(number, row, cell);
        }
        for (cells, refused) in refusals(row) {
            let first = glyph_and_sizes(number, row, cells);
            rows += &format!(
                r#"<tr>{first}<td class="what" colspan="6">{}: {}</td></tr>"#,
                refused.step,
                refusal(refused.refusal)
            );
        }
    }
    if rows.is_empty() {
        return "<p>Nothing was found.</p>".into();
    }
    let heads = [
        "glyph",
        "size",
        "what pixels show",
        "edges at it",
        "what the guard says",
        &format!("outline, at {TIMES} times"),
        "fitted pixels",
        "unfitted pixels",
    ];
    table("Found", &heads, &rows)
}

/// What changed since another label, with the pixels that were and that are.
pub fn changed(specimen: &Specimen, since: &Since) -> String {
    let name = escaped(&since.name);
    let row = |change: &Change| {
        let (number, cell) = (change.row, change.cell);
        let first = glyph_and_sizes(number, &specimen.rows[number], slice::from_ref(cell));
        format!(
            r#"<tr>{first}<td class="changed">{}</td><td>{}</td><td>{}</td></tr>"#,
            change.what,
            change.was.map_or(String::new(), fitted_pixels),
            fitted_pixels(cell)
        )
    };
    let gone = |name: &&str| {
        format!(
            r#"<tr><td>{}</td><td></td><td colspan="3">no longer there</td></tr>"#,
            escaped(name)
        )
    };
    let rows = since.changes().map(row);
    let rows: String = rows.chain(since.gone.iter().map(gone)).collect();
    if rows.is_empty() {
        return format!("<p>Nothing changed since {name}.</p>");
    }
    let heads = ["glyph", "size", "what changed", "was", "is"];
    table(&format!("Changed since {name}"), &heads, &rows)
}

/// A list with its title and the heads of its columns.
fn table(title: &str, heads: &[&str], rows: &str) -> String {
    let head = |head: &&str| format!(r#"<th scope="col">{head}</th>"#);
    let heads: String = heads.iter().map(head).collect();
    format!(
        r#"<div class="list"><table><caption>{title}</caption><thead><tr>{heads}</tr></thead><tbody>{rows}</tbody></table></div>"#
    )
}

/// The fitted pixels of a cell, where it has them.
fn fitted_pixels(cell: &Cell) -> String {
    let Outcome::Fitted(fitted) = &cell.outcome else {
        return "refused".into();
    };
    let bitmap = &fitted.1.after;
    let right = bitmap.left + bitmap.width as i32;
    small_pixels(
        bitmap.left..right,
        cell.size,
        &format!(r#"<path d="{}""#, runs(bitmap)),
    )
}

/// What was found of a glyph at a size, or what the guard alone says of it.
fn found_in(number: usize, row: &Row, cell: &Cell) -> String {
    let Outcome::Fitted(fitted) = &cell.outcome else {
        return String::new();
    };
    let (fitted, judged) = (&fitted.0, &fitted.1);
    let first = glyph_and_sizes(number, row, slice::from_ref(cell));
    let lost = guard(fitted);
    let last = format!(
        "<td>{}</td><td>{}</td><td>{}</td><td>{}</td>",
        lost.as_deref().unwrap_or("nothing"),
        judged.outline,
        judged.fitted,
        judged.unfitted
    );
    let line = |finding: &Finding| {
        let edges = unplaced(finding).map_or("all placed".into(), |edges| {
            format!("nothing placed {edges}")
        });
        let (class, what) = (finding_class(finding), &finding.what);
        format!(r#"<tr>{first}<td class="{class}">{what}</td><td>{edges}</td>{last}</tr>"#)
    };
    match (cell.findings(), &lost) {
        ([], None) => String::new(),
        ([], Some(_)) => format!("<tr>{first}<td>nothing</td><td></td>{last}</tr>"),
        (findings, _) => findings.iter().map(line).collect(),
    }
}

/// The class of a finding, which tells apart those at edges that nothing placed.
pub fn finding_class(finding: &Finding) -> &'static str {
    if finding.unplaced.is_empty() {
        "what"
    } else {
        "what unplaced"
    }
}

/// A glyph's name and sizes, each of which leads to its drawing.
fn glyph_and_sizes(number: usize, row: &Row, cells: &[Cell]) -> String {
    let size = |cell: &Cell| {
        format!(
            r##"<a href="#{}">{}</a>"##,
            cell_id(number, cell),
            cell.size
        )
    };
    let sizes: Vec<String> = cells.iter().map(size).collect();
    format!(
        r#"<td>{}</td><td class="size">{}</td>"#,
        escaped(&row.name),
        sizes.join(" ")
    )
}

/// A refusal's number, name and reason.
pub fn refusal(refusal: Refusal) -> String {
    let text = refusal.to_string();
    let (number, reason) = text.split_once(": ").unwrap_or((&text, ""));
    format!(r#"<strong class="refusal">{number}, {refusal:?}</strong>: {reason}"#)
}

/// The name of a cell.
pub fn cell_id(number: usize, cell: &Cell) -> String {
    format!("g{number}-{}", cell.size)
}
