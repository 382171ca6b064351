//! The ratios as a picture, target/bench.svg, which `./bench --write` takes for docs/bench.svg.

use crate::table::Row;
use std::{fmt::Write, fs};

/// Where the picture goes.
const FILE: &str = "target/bench.svg";

/// The picture's lines: the first and the last size, and the least and the largest ratio, each a power of ten or of two.
const SIZES: [f64; 2] = [1.0, 4_096.0];
const RATIOS: [f64; 2] = [0.1, 1_000.0];

/// The plot's left, right, top and bottom.
const BOX: [f64; 4] = [70.0, 640.0, 50.0, 540.0];

const COLOURS: [&str; 10] = [
    "#1f77b4", "#d62728", "#2ca02c", "#9467bd", "#ff7f0e", "#8c564b", "#17becf", "#e377c2",
    "#7f7f7f", "#bcbd22",
];

/// Writes the picture of these rows.
pub fn write(rows: &[Row]) {
    if let Err(error) = fs::write(FILE, picture(rows)) {
        eprintln!("bench: {FILE}: {error}");
    }
}

/// How far a value is along a logarithmic line.
fn along(value: f64, ends: [f64; 2], places: [f64; 2]) -> f64 {
    let part = (value / ends[0]).ln() / (ends[1] / ends[0]).ln();
    places[0] + part.clamp(0.0, 1.0) * (places[1] - places[0])
}

/// Where a size and a ratio stand.
fn place(size: f64, ratio: f64) -> (f64, f64) {
    let [left, right, top, bottom] = BOX;
    (
        along(size, SIZES, [left, right]),
        along(ratio, RATIOS, [bottom, top]),
    )
}

/// The whole picture.
fn picture(rows: &[Row]) -> String {
    let mut svg = String::new();
    let [left, right, top, bottom] = BOX;
    let _ = writeln!(
        svg,
        "<svg xmlns=\"http://www.w3.org/2000/svg\" width=\"960\" height=\"600\" font-family=\"sans-serif\" font-size=\"12\">\n\
         <rect width=\"960\" height=\"600\" fill=\"white\"/>\n\
         <text x=\"{left}\" y=\"28\" font-size=\"16\">Time of the port over that of the Rust, by size</text>"
    );
    for ratio in [0.1, 1.0, 10.0, 100.0, 1_000.0] {
        let (_, y) = place(1.0, ratio);
        let colour = if ratio == 1.0 { "black" } else { "#dddddd" };
        let _ = writeln!(
            svg,
            "<line x1=\"{left}\" y1=\"{y:.1}\" x2=\"{right}\" y2=\"{y:.1}\" stroke=\"{colour}\"/>\n\
             <text x=\"{:.1}\" y=\"{:.1}\" text-anchor=\"end\">{ratio}</text>",
            left - 8.0,
            y + 4.0
        );
    }
    for size in [1, 4, 16, 64, 256, 1_024, 4_096] {
        let (x, _) = place(f64::from(size), 1.0);
        let _ = writeln!(
            svg,
            "<line x1=\"{x:.1}\" y1=\"{top}\" x2=\"{x:.1}\" y2=\"{bottom}\" stroke=\"#eeeeee\"/>\n\
             <text x=\"{x:.1}\" y=\"{:.1}\" text-anchor=\"middle\">{size}</text>",
            bottom + 18.0
        );
    }
    let _ = writeln!(
        svg,
        "<text x=\"{left}\" y=\"{:.1}\">points, segments or edges; both scales are logarithmic, below the black line the port is faster</text>",
        bottom + 40.0
    );
    for (ix, line) in rows.chunk_by(same_line).enumerate() {
        svg.push_str(&curve(ix, line));
    }
    svg.push_str("</svg>\n");
    svg
}

/// Whether two rows are of one call and one kind of inputs.
fn same_line(a: &Row, b: &Row) -> bool {
    a.name == b.name && a.kind == b.kind
}

/// One line of the picture, and its name beside it.
fn curve(ix: usize, rows: &[Row]) -> String {
    let colour = COLOURS[ix % COLOURS.len()];
    let dashes = ["none", "6 3", "2 2", "8 3 2 3"][ix / COLOURS.len() % 4];
    let points: Vec<String> = rows
        .iter()
        .map(|row| place(row.size as f64, row.ratio()))
        .map(|(x, y)| format!("{x:.1},{y:.1}"))
        .collect();
    let mut svg = format!(
        "<polyline points=\"{}\" fill=\"none\" stroke=\"{colour}\" stroke-width=\"1.5\" stroke-dasharray=\"{dashes}\"/>\n",
        points.join(" ")
    );
    for point in &points {
        let (x, y) = point.split_once(',').expect("a point has two numbers");
        let _ = writeln!(
            svg,
            "<circle cx=\"{x}\" cy=\"{y}\" r=\"2.5\" fill=\"{colour}\"/>"
        );
    }
    let y = BOX[2] + 15.0 * ix as f64;
    let _ = writeln!(
        svg,
        "<line x1=\"665\" y1=\"{y:.1}\" x2=\"690\" y2=\"{y:.1}\" stroke=\"{colour}\" stroke-width=\"1.5\" stroke-dasharray=\"{dashes}\"/>\n\
         <text x=\"698\" y=\"{:.1}\">{}, {}</text>",
        y + 4.0,
        rows[0].name,
        rows[0].kind
    );
    svg
}
