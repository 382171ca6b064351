//! What is shown of the sample label's glyphs, timed beside a plain scanline fill of the same definition and beside the fitting of these glyphs.

use crate::{
    fitting, label,
    label::Glyph,
    port,
    size::{at_scale, scale_of},
    time::{self, Side},
};
use oracle::{
    job::{Job, Walk},
    plain, shown,
};
use std::{fs, hint::black_box, path::Path};

/// The sizes, in pixels to the em.
const SIZES: [i32; 6] = [11, 12, 14, 16, 20, 24];
/// How many times outlines are magnified: as the display shows them, and for a closer look.
const TIMES: [i32; 2] = [1, 16];
/// The units to the em of glyphs whose jobs do not tell.
const UNITS_PER_EM: i32 = 1_000;

/// The plain fill's side.
struct Filled(Walk, i32);

impl Side for Filled {
    fn restore(&mut self) {}

    fn work(&mut self) {
        black_box(plain::count_shown(black_box(&self.0), self.1));
    }
}

/// A glyph that is fitted, on both axes, with its path before and after.
struct Fitted(Glyph);

impl Side for Fitted {
    fn restore(&mut self) {}

    fn work(&mut self) {
        let _ = black_box(fitting::fit(black_box(&self.0)));
    }
}

/// Prints a line for each size and magnification.
pub fn run() {
    println!("Median times for a glyph of the sample label, fitted: counting what is shown of it, beside a plain Rust scanline fill of the same definition, which is to take as long or longer where");
    println!("nothing is magnified, and beside fitting the glyph by the wrapper's calls on both axes with its paths before and after, in nanoseconds");
    println!(
        "{:>6} {:>6} {:>6} {:>7} {:>7} {:>10} {:>10} {:>9} {:>10} {:>12}",
        "pixels",
        "times",
        "glyphs",
        "points",
        "black",
        "port",
        "Rust",
        "port/Rust",
        "fitting",
        "port/fitting"
    );
    let path = Path::new(env!("CARGO_MANIFEST_DIR")).join("../../crates/label/stdin");
    let file = fs::read(path).expect("the sample label is in the repository");
    let glyphs = label::read(&file).expect("the sample label is a label");
    for size in SIZES {
        let sized: Vec<Glyph> = glyphs.iter().map(|glyph| at_size(glyph, size)).collect();
        let (glyphs, walks): (Vec<Glyph>, Vec<Walk>) = sized
            .into_iter()
            .filter_map(|glyph| Some((fitted(&glyph)?, glyph)))
            .map(|(walk, glyph)| (glyph, walk))
            .unzip();
        let mut fits: Vec<Fitted> = glyphs.into_iter().map(Fitted).collect();
        for times in TIMES {
            line(size, times, &walks, &mut fits);
        }
    }
}

/// A glyph at so many pixels to the em.
fn at_size(glyph: &Glyph, size: i32) -> Glyph {
    let told = glyph.heights.linked_by.or(glyph.widths.linked_by);
    let units = told.filter(|units| *units > 0).unwrap_or(UNITS_PER_EM);
    at_scale(glyph, scale_of(size, units)).expect("every zone has a place at every size")
}

/// The outline of a fitted glyph, if it is not refused.
fn fitted(glyph: &Glyph) -> Option<Walk> {
    let fitted = fitting::fit(glyph).ok()?;
    Some(Walk {
        xs: fitted.widths.after,
        ys: fitted.heights.after,
        marks: glyph.on_curve.clone(),
        ends: glyph.ends.clone(),
    })
}

/// Prints the line of a size and a magnification, once both sides have counted the same.
fn line(size: i32, times: i32, walks: &[Walk], fits: &mut Vec<Fitted>) {
    let job = |walk: &Walk| port::Prepared::new(Job::Shown(walk.clone(), times), &[]);
    let mut port: Vec<port::Prepared> = walks.iter().map(job).collect();
    let mut rust: Vec<Filled> = walks
        .iter()
        .cloned()
        .map(|walk| Filled(walk, times))
        .collect();
    let mut black = 0;
    for (port, walk) in port.iter_mut().zip(walks) {
        let [pixels, euler, ..] = port.run().expect("a fitted glyph is accepted");
        let counted = shown::count_shown(walk, times).expect("a fitted glyph is accepted");
        assert_eq!(
            (pixels as usize, euler),
            (counted.black, counted.euler),
            "the results differ"
        );
        assert_eq!(
            plain::count_shown(walk, times),
            counted,
            "the results differ"
        );
        black += counted.black;
    }
    let glyphs = walks.len();
    let points: usize = walks.iter().map(|walk| walk.xs.len()).sum();
    let each = |sum: usize| sum as f64 / glyphs as f64;
    let [port, rust, fit] =
        time::medians([&mut port, &mut rust, fits]).map(|time| time / glyphs as f64);
    println!(
        "{size:6} {times:6} {glyphs:6} {:7.1} {:7.1} {port:10.1} {rust:10.1} {:9.2} {fit:10.1} {:12.2}",
        each(points),
        each(black),
        port / rust,
        port / fit
    );
}
