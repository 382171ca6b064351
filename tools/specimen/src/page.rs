//! The page: what was found, everything at once, then glyph by glyph.

use crate::{
    chain::{name, Fitted, FittedAxis, Placing},
    findings::Judged,
    line::line,
    packed,
    report::{guard, is_listed, joined, numbered, summary},
    since::{Change, Since},
    specimen::{Cell, Outcome, Row, Specimen},
    svg::{drawing, escaped, pixels, pixels_id, Frame, View},
    symbols::{symbol_id, symbols},
    tables::{cell_id, changed, finding_class, found, refusal},
};
use khsaemudol::Mark;
use std::ops::Range;

/// How many times their size the pixels of the overview are drawn.
const OVERVIEW: i32 = 3;

/// The most drawings of a page whose points can be dragged: what is asked of the library for that makes a page much larger.
const MOST_DRAGGED: usize = 400;

/// How to use the page.
const NOTE: &str = "Point at an edge or a point for its numbers, or go through those of a drawing by the arrow keys; keys b and a switch to before and after, f to glyphs with findings alone, and / goes to the search. \
    Below a drawing stand the pieces and holes of its pixels, what the guard says, and the edges and points that nothing placed.";

/// How to drag points, where they can be.
const NOTE_OF_DRAGGING: &str = " Drag a touched point of a fitted drawing, or move the one that is pointed at by Shift and an arrow key, to see what follows; Escape puts it back. The only touched point of a contour that is set on its original moves nothing.";

/// The whole page of a label that has this name, with what changed since another where that is asked for.
pub fn html(specimen: &Specimen, since: Option<&Since>, name: &str) -> String {
    let head = head(name);
    let script = include_str!("page.js");
    let rows = specimen.rows.iter().enumerate();
    let drags = specimen.cells().count() <= MOST_DRAGGED;
    let dragging = if drags { NOTE_OF_DRAGGING } else { "" };
    let glyphs: String = rows
        .map(|(number, row)| glyph(number, row, since, drags))
        .collect();
    format!(
        r#"{head}<body class="after">
<svg width="0" height="0" aria-hidden="true" class="symbols"><defs>{}{}</defs></svg>
<header>
<h1>Specimen of {}</h1>
{}
{}
</header>
<main>
<p class="summary">{}</p>
{}
{}
{}
{}
<p class="note">{NOTE}{dragging}</p>
<div class="glyphs">
{glyphs}</div>
</main>
<div id="numbers" role="status" hidden></div>
<script>
{}{script}</script>
</body>
</html>
"#,
        symbols(),
        all_pixels(specimen),
        escaped(name),
        controls(since.is_some()),
        legend(),
        summary(specimen, since),
        since.map_or(String::new(), |since| changed(specimen, since)),
        found(specimen),
        line(specimen),
        overview(specimen, since),
        packed::script(),
    )
}

/// The pixels of all glyphs at all sizes.
fn all_pixels(specimen: &Specimen) -> String {
    let rows = specimen.rows.iter().enumerate();
    rows.flat_map(|(number, row)| row.cells.iter().map(move |cell| pixels(number, cell)))
        .collect()
}

/// All in front of the page's body.
fn head(name: &str) -> String {
    let (title, style) = (escaped(name), include_str!("page.css"));
    format!(
        r#"<!DOCTYPE html>
<html lang="en">
<head>
<meta charset="utf-8">
<meta name="viewport" content="width=device-width">
<title>Specimen of {title}</title>
<style>
{style}</style>
</head>
"#
    )
}

/// The switch, what is shown, and which glyphs.
fn controls(since: bool) -> String {
    let view = |value: &str, checked: &str| {
        format!(
            r#"<label><input type="radio" name="view" value="{value}"{checked}> {value}</label>"#
        )
    };
    let layer = |value: &str| {
        format!(
            r#"<label><input type="checkbox" name="layer" value="{value}" checked> {value}</label>"#
        )
    };
    let layers: String = ["pixels", "outline", "edges", "points"].map(layer).concat();
    let only = |value: &str, text: &str| {
        format!(r#"<label><input type="checkbox" name="only" value="{value}"> {text}</label>"#)
    };
    let changed = if since {
        only("changed", "changed")
    } else {
        String::new()
    };
    format!(
        r#"<form><fieldset><legend>View</legend>{}{}</fieldset><fieldset><legend>Show</legend>{layers}</fieldset><fieldset><legend>Only glyphs</legend>{}{changed}<label>named <input type="search" name="named" size="10" spellcheck="false" autocomplete="off"></label><output name="count"></output></fieldset></form>"#,
        view("before", ""),
        view("after", " checked"),
        only("listed", "with findings")
    )
}

/// What colours, lines and points mean.
fn legend() -> String {
    let mark = |mark: &Mark| format!(r#"<li class="m{}"><i></i>{mark}</li>"#, *mark as i32);
    let marks: String = Mark::ALL
        .iter()
        .filter(|mark| **mark != Mark::Nothing)
        .map(mark)
        .collect();
    let point = |height, width, on_curve, text: &str| {
        let id = symbol_id(height, width, on_curve);
        format!(
            r##"<li><svg width="14" height="14" viewBox="-7 -7 14 14" aria-hidden="true"><use href="#{id}"/></svg>{text}</li>"##
        )
    };
    use Placing::{Edge, Nothing, Strong, Weak};
    let points = [
        point(Edge, Edge, true, "touched with edges on both axes"),
        point(Edge, Weak, true, "height with an edge, x weak"),
        point(Weak, Edge, true, "x with an edge, height weak"),
        point(
            Strong,
            Strong,
            true,
            "strong: touched by the edges around it",
        ),
        point(Weak, Weak, true, "weak"),
        point(Nothing, Nothing, true, "nothing placed it"),
        point(Weak, Weak, false, "off the curve"),
    ];
    let other = [
        ("pixel", "black pixel"),
        ("this", "outline"),
        ("other", "the same in the other view"),
        ("place", "found here"),
        ("place unplaced", "found at an edge that nothing placed"),
    ];
    let other = other.map(|(class, text)| format!(r#"<li><i class="{class}"></i>{text}</li>"#));
    format!(
        r#"<ul class="legend" aria-label="Legend"><li class="group">Edges</li>{marks}<li class="m0"><i></i>nothing placed it</li><li class="group">Points</li>{}<li class="group">Drawing</li>{}</ul>"#,
        points.concat(),
        other.concat()
    )
}

/// All glyphs in a row for each size, unfitted and below that fitted.
fn overview(specimen: &Specimen, since: Option<&Since>) -> String {
    let line = |size: &i32, view: View| {
        let glyphs: String = specimen
            .rows
            .iter()
            .enumerate()
            .map(|(number, row)| small(number, row, since, *size, view))
            .collect();
        let (name, size) = match view {
            View::Before => ("unfitted", size.to_string()),
            View::After => ("fitted", String::new()),
        };
        format!(
            r#"<div class="line"><span class="size">{size}</span><span class="view">{name}</span>{glyphs}</div>"#
        )
    };
    let both = |size| View::BOTH.map(|view| line(size, view)).concat();
    let lines: String = specimen.sizes.iter().map(both).collect();
    format!(
        r#"<section class="overview" aria-label="Everything at once, {OVERVIEW} times its size">{lines}</section>"#
    )
}

/// A glyph's pixels at a size, in the overview.
fn small(number: usize, row: &Row, since: Option<&Since>, size: i32, view: View) -> String {
    let Some(cell) = row.cells.iter().find(|cell| cell.size == size) else {
        return String::new();
    };
    let id = cell_id(number, cell);
    let label = escaped(&format!("{} at {size}", row.name));
    let Outcome::Fitted(fitted) = &cell.outcome else {
        return format!(r##"<a class="refusal" href="#{id}" aria-label="{label}, refused">×</a>"##);
    };
    let (before, after) = (&fitted.1.before, &fitted.1.after);
    let left = before.left.min(after.left);
    let right = (before.left + before.width as i32).max(after.left + after.width as i32);
    let pixels = format!(r##"<use href="#{}""##, pixels_id(number, size, view));
    let svg = small_pixels(left..right, size, &pixels);
    let class = match view {
        View::Before => String::new(),
        View::After => class(&[
            ("found", !cell.findings().is_empty()),
            ("changed", is_changed(since, number, cell)),
        ]),
    };
    format!(r##"<a{class} href="#{id}" aria-label="{label}">{svg}</a>"##)
}

/// Whether a cell of a row changed since another label.
fn is_changed(since: Option<&Since>, number: usize, cell: &Cell) -> bool {
    since.is_some_and(|since| since.change(number, cell.size).is_some())
}

/// The attribute of the classes that apply, none where none does.
fn class(classes: &[(&str, bool)]) -> String {
    let apply: Vec<&str> = classes
        .iter()
        .filter(|(_, applies)| *applies)
        .map(|(class, _)| *class)
        .collect();
    match apply.is_empty() {
        true => String::new(),
        false => format!(r#" class="{}""#, apply.join(" ")),
    }
}

/// What a tag in pixels draws, as the overview has it: the columns of a bitmap without its margins, in a line of an em and a quarter, with the baseline at its place in all.
pub fn small_pixels(columns: Range<i32>, size: i32, tag: &str) -> String {
    let (left, width) = (columns.start + 1, columns.end - columns.start - 2);
    let (down, up) = ((size + 2) / 4, size);
    let height = up + down;
    format!(
        r#"<svg width="{}" height="{}" viewBox="{left} -{up} {width} {height}" aria-hidden="true">{tag} transform="scale(1 -1)"/></svg>"#,
        width * OVERVIEW,
        height * OVERVIEW
    )
}

/// A glyph at all sizes, whose points can be dragged or not.
fn glyph(number: usize, row: &Row, since: Option<&Since>, drags: bool) -> String {
    let frame = Frame::of(row);
    let cells: String = row
        .cells
        .iter()
        .map(|cell| {
            let change = since.and_then(|since| since.change(number, cell.size));
            figure(number, row, cell, change, frame, drags)
        })
        .collect();
    let class = class(&[
        ("glyph", true),
        ("listed", row.cells.iter().any(is_listed)),
        (
            "changed",
            row.cells.iter().any(|cell| is_changed(since, number, cell)),
        ),
    ]);
    let character = row.character.map_or(String::new(), |character| {
        format!(r#" data-c="{}""#, escaped(&character.to_string()))
    });
    format!(
        r#"<section{class}{character}><h2>{}</h2><div class="cells">{cells}</div></section>"#,
        escaped(&row.name)
    ) + "\n"
}

/// A glyph at a size. Its drawing is kept as short text: the page makes it when it comes into view.
fn figure(
    number: usize,
    row: &Row,
    cell: &Cell,
    change: Option<&Change>,
    frame: Frame,
    drags: bool,
) -> String {
    let mut caption = match &cell.outcome {
        Outcome::Fitted(fitted) => caption(cell, &fitted.0, &fitted.1),
        Outcome::Refused(refused, _) => {
            format!("<p>{}: {}</p>", refused.step, refusal(refused.refusal))
        }
    };
    if let Some(change) = change {
        caption += &format!(r#"<p class="changed">changed: {}</p>"#, change.what);
    }
    format!(
        r#"<figure id="{}" tabindex="0"><div class="later" style="width:{}px;height:{}px"><script type="text/plain">{}</script></div><figcaption><b>{}</b>{caption}</figcaption></figure>"#,
        cell_id(number, cell),
        frame.width(),
        frame.height(),
        packed::packed(&drawing(number, row, cell, frame, drags)),
        cell.size
    )
}

/// Pieces and holes, what was found, what the guard says, and what nothing placed.
fn caption(cell: &Cell, fitted: &Fitted, judged: &Judged) -> String {
    let mut caption = format!(
        r#"<span class="b">{}</span><span class="a">{}</span>"#,
        judged.unfitted, judged.fitted
    );
    for finding in cell.findings() {
        let (class, what) = (finding_class(finding), &finding.what);
        caption += &format!(r#"<p class="{class}">{what}</p>"#);
    }
    let lost = guard(fitted);
    let lost = lost.as_deref().unwrap_or("nothing");
    caption += &format!(r#"<p class="guard">guard: {lost}</p>"#);
    for axis in [&fitted.heights, &fitted.widths] {
        if let Some(text) = nothing_placed(axis) {
            caption += &format!(
                r#"<p class="unplaced">{}: nothing placed {text}</p>"#,
                name(axis.dimension)
            );
        }
    }
    caption
}

/// The edges and points of an axis that nothing placed, where there are any.
fn nothing_placed(axis: &FittedAxis) -> Option<String> {
    let points: Vec<usize> = (0..axis.placing.len())
        .filter(|point| axis.placing[*point] == Placing::Nothing)
        .collect();
    joined([
        numbered("edge", &axis.unplaced()),
        numbered("point", &points),
    ])
}
