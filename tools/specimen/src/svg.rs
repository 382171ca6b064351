//! A glyph at a size as a drawing: pixel grid, black pixels, outline, edges and points, before and after.

use crate::{
    advance::Setting,
    chain::{extent, Fitted, FittedAxis},
    drag::{drags, text},
    fill::{fill, Bitmap},
    findings::{Finding, Judged},
    numbers::{edge_numbers, point_numbers},
    size::PIXEL,
    specimen::{Cell, Outcome, Row},
    symbols::symbol_id,
};
use khsaemudol::{Dimension, PathStep};

/// The length of an em in the drawing.
const EM: f64 = 200.0;

/// How far the frame of a finding is from it.
const AROUND: f64 = 2.0;

/// The two views: the class of what is drawn in each.
#[derive(Clone, Copy, PartialEq, Eq)]
pub enum View {
    Before,
    After,
}

impl View {
    pub const BOTH: [Self; 2] = [Self::Before, Self::After];

    /// The class of what is drawn in this view.
    pub fn class(self) -> &'static str {
        match self {
            Self::Before => "b",
            Self::After => "a",
        }
    }

    /// Where an axis' points are in this view.
    fn points(self, axis: &FittedAxis) -> &[i32] {
        match self {
            Self::Before => &axis.before,
            Self::After => &axis.after,
        }
    }
}

/// The name of a cell's pixels, for drawings that show them again.
pub fn pixels_id(row: usize, size: i32, view: View) -> String {
    format!("x{row}-{size}{}", view.class())
}

/// The part of the em that the drawings of a glyph show, the same at all sizes.
#[derive(Clone, Copy)]
pub struct Frame {
    left: f64,
    right: f64,
    bottom: f64,
    top: f64,
}

impl Frame {
    /// The frame of a glyph: everything that is drawn of it, at every size, and a pixel around it.
    pub fn of(row: &Row) -> Self {
        let mut frame = Self {
            left: 0.0,
            right: 0.0,
            bottom: 0.0,
            top: 0.0,
        };
        for cell in &row.cells {
            let size = f64::from(cell.size);
            for bitmap in bitmaps(cell) {
                let (right, top) = (
                    bitmap.left + bitmap.width as i32,
                    bitmap.bottom + bitmap.height as i32,
                );
                frame.left = frame.left.min(f64::from(bitmap.left) / size);
                frame.right = frame.right.max(f64::from(right) / size);
                frame.bottom = frame.bottom.min(f64::from(bitmap.bottom) / size);
                frame.top = frame.top.max(f64::from(top) / size);
            }
        }
        frame
    }

    /// The width of the drawings.
    pub fn width(self) -> f64 {
        tenths(self.right - self.left)
    }

    /// Their height.
    pub fn height(self) -> f64 {
        tenths(self.top - self.bottom)
    }
}

/// A length in ems as the drawing has it, to a tenth.
fn tenths(ems: f64) -> f64 {
    (ems * EM * 10.0).round() / 10.0
}

/// What is filled of a cell.
fn bitmaps(cell: &Cell) -> Vec<Bitmap> {
    match &cell.outcome {
        Outcome::Fitted(fitted) => vec![fitted.1.before.clone(), fitted.1.after.clone()],
        Outcome::Refused(_, outline) => outline.iter().map(|path| fill(path, 1)).collect(),
    }
}

/// The pixels of a cell, of the row of this number, in both views, for drawings to show.
pub fn pixels(number: usize, cell: &Cell) -> String {
    let Outcome::Fitted(fitted) = &cell.outcome else {
        return String::new();
    };
    let bitmaps = [&fitted.1.before, &fitted.1.after];
    let path = |(view, bitmap): (View, &Bitmap)| {
        let id = pixels_id(number, cell.size, view);
        let Setting { shift, advance } = cell.settings[view as usize];
        format!(
            r#"<path id="{id}" data-s="{shift} {advance}" d="{}"/>"#,
            runs(bitmap)
        )
    };
    View::BOTH.into_iter().zip(bitmaps).map(path).collect()
}

/// A drawing of a glyph at a size.
struct Drawing {
    frame: Frame,
    size: f64,
    /// Whether its points can be dragged.
    drags: bool,
    text: String,
}

/// The drawing of a cell, of the row of this number.
pub fn drawing(number: usize, row: &Row, cell: &Cell, frame: Frame, drags: bool) -> String {
    let mut drawing = Drawing {
        frame,
        size: cell.size.into(),
        drags,
        text: String::new(),
    };
    drawing.open(&format!("{} at {} pixels to the em", row.name, cell.size));
    match &cell.outcome {
        Outcome::Fitted(fitted) => drawing.fitted(number, row, cell.size, &fitted.0, &fitted.1),
        Outcome::Refused(_, outline) => drawing.refused(outline.as_deref()),
    }
    drawing.text + "</svg>"
}

impl Drawing {
    fn put(&mut self, text: std::fmt::Arguments<'_>) {
        self.text += &text.to_string();
    }

    /// Where an x in units is in the drawing.
    fn x(&self, units: i32) -> f64 {
        tenths(f64::from(units) / f64::from(PIXEL) / self.size - self.frame.left)
    }

    /// Where a height in units is.
    fn y(&self, units: i32) -> f64 {
        tenths(self.frame.top - f64::from(units) / f64::from(PIXEL) / self.size)
    }

    fn open(&mut self, label: &str) {
        let (width, height) = (self.frame.width(), self.frame.height());
        self.put(format_args!(r#"<svg width="{width}" height="{height}" viewBox="0 0 {width} {height}" role="img" aria-label="{}">"#, escaped(label)));
    }

    /// Opens a group in which a pixel has length 1 and heights go up.
    fn in_pixels(&mut self) {
        let (x, y, pixel) = (
            tenths(-self.frame.left),
            tenths(self.frame.top),
            EM / self.size,
        );
        self.put(format_args!(
            r#"<g transform="translate({x} {y}) scale({pixel:.4} -{pixel:.4})">"#
        ));
    }

    /// The pixel grid; lines through 0 stand out.
    fn grid(&mut self) {
        let Frame {
            left,
            right,
            bottom,
            top,
        } = self.frame;
        let line = |ems: f64| ems * self.size;
        let whole = |from: f64, to: f64| line(from).ceil() as i32..=line(to).floor() as i32;
        let mut grid = String::new();
        for x in whole(left, right) {
            grid += &format!("M{x} {:.2}V{:.2}", line(bottom), line(top));
        }
        for y in whole(bottom, top) {
            grid += &format!("M{:.2} {y}H{:.2}", line(left), line(right));
        }
        let axes = format!(
            "M0 {:.2}V{:.2}M{:.2} 0H{:.2}",
            line(bottom),
            line(top),
            line(left),
            line(right)
        );
        self.put(format_args!(
            r#"<path class="grid" d="{grid}"/><path class="grid zero" d="{axes}"/>"#
        ));
    }

    /// A fitted glyph.
    fn fitted(&mut self, number: usize, row: &Row, size: i32, fitted: &Fitted, judged: &Judged) {
        self.in_pixels();
        for view in View::BOTH {
            self.put(format_args!(
                r##"<g class="px {}"><use href="#{}"/></g>"##,
                view.class(),
                pixels_id(number, size, view)
            ));
        }
        self.grid();
        for (view, path) in View::BOTH.into_iter().zip([&fitted.before, &fitted.after]) {
            self.put(format_args!(
                r#"<path class="o o{}" d="{}"/>"#,
                view.class(),
                outline(path)
            ));
        }
        self.put(format_args!("</g>"));
        for axis in [&fitted.heights, &fitted.widths] {
            for edge in 0..axis.edges.len() {
                self.edge(fitted, axis, edge);
            }
        }
        for point in 0..row.on_curve.len() {
            self.point(row, fitted, point);
        }
        for finding in &judged.findings {
            self.found(finding);
        }
    }

    /// A frame a little outside of where something was found.
    fn found(&mut self, finding: &Finding) {
        let place = &finding.place;
        let class = if finding.unplaced.is_empty() {
            "found"
        } else {
            "found unplaced"
        };
        let (x, y) = (
            self.x(*place.xs.start()) - AROUND,
            self.y(*place.ys.end()) - AROUND,
        );
        let width = self.x(*place.xs.end()) + AROUND - x;
        let height = self.y(*place.ys.start()) + AROUND - y;
        self.put(format_args!(
            r#"<rect class="{class}" x="{x:.1}" y="{y:.1}" width="{width:.1}" height="{height:.1}"/>"#
        ));
    }

    /// A refused glyph: its outline as it is, where that has a path.
    fn refused(&mut self, path: Option<&[PathStep]>) {
        self.in_pixels();
        self.grid();
        if let Some(path) = path {
            self.put(format_args!(
                r#"<path class="o refused" d="{}"/>"#,
                outline(path)
            ));
        }
        self.put(format_args!("</g>"));
    }

    /// An edge: along its segments, and thin across the drawing where it was placed.
    fn edge(&mut self, fitted: &Fitted, axis: &FittedAxis, edge: usize) {
        let mark = axis.edges[edge].mark() as i32;
        self.put(format_args!(
            r#"<g class="e m{mark}" data-n="{}">"#,
            edge_numbers(axis, edge)
        ));
        for view in View::BOTH {
            let class = view.class();
            let along = self.along(fitted, axis, edge, view);
            let across = if axis.is_placed(edge) {
                self.across(axis, edge, view)
            } else {
                String::new()
            };
            self.put(format_args!(r#"<g class="{class}"><path class="hit" d="{along}{across}"/><path class="across" d="{across}"/><path d="{along}"/></g>"#));
        }
        self.put(format_args!("</g>"));
    }

    /// The lines along the segments of an edge.
    fn along(&self, fitted: &Fitted, axis: &FittedAxis, edge: usize, view: View) -> String {
        let mut lines = String::new();
        for segment in (0..axis.segments.len())
            .filter(|segment| axis.segments[*segment].edge() == u16::try_from(edge).ok())
        {
            let points: Vec<usize> = (0..axis.segment_of.len())
                .filter(|point| axis.segment_of[*point] == Some(segment))
                .collect();
            let (xs, ys) = (
                extent(&points, view.points(&fitted.widths)),
                extent(&points, view.points(&fitted.heights)),
            );
            if let Some((xs, ys)) = xs.zip(ys) {
                lines += &format!(
                    "M{} {}L{} {}",
                    self.x(*xs.start()),
                    self.y(*ys.start()),
                    self.x(*xs.end()),
                    self.y(*ys.end())
                );
            }
        }
        lines
    }

    /// The line across the drawing at an edge's position.
    fn across(&self, axis: &FittedAxis, edge: usize, view: View) -> String {
        let edge = axis.edges[edge];
        let position = if view == View::Before {
            edge.opos()
        } else {
            edge.pos()
        };
        match axis.dimension {
            Dimension::Horizontal => format!("M{} 0V{}", self.x(position), self.frame.height()),
            Dimension::Vertical => format!("M0 {}H{}", self.y(position), self.frame.width()),
        }
    }

    /// A point, with a bar for each axis.
    fn point(&mut self, row: &Row, fitted: &Fitted, point: usize) {
        let symbol = symbol_id(
            fitted.heights.placing[point],
            fitted.widths.placing[point],
            row.on_curve[point] != 0,
        );
        self.put(format_args!(
            r#"<g class="p" data-n="{}""#,
            point_numbers(row, fitted, point)
        ));
        for (letter, axis) in [("x", &fitted.widths), ("y", &fitted.heights)] {
            if let Some(moving) = self
                .drags
                .then(|| drags(row, fitted, axis, point))
                .flatten()
            {
                self.put(format_args!(r#" data-{letter}="{}""#, text(&moving)));
            }
        }
        self.put(format_args!(">"));
        for view in View::BOTH {
            let (x, y) = (
                self.x(view.points(&fitted.widths)[point]),
                self.y(view.points(&fitted.heights)[point]),
            );
            self.put(format_args!(
                r##"<g class="{}"><use href="#{symbol}" x="{x}" y="{y}"/></g>"##,
                view.class()
            ));
        }
        self.put(format_args!("</g>"));
    }
}

/// The black pixels of a bitmap, run by run.
pub fn runs(bitmap: &Bitmap) -> String {
    let mut path = String::new();
    for (x, y) in bitmap.pixels() {
        if bitmap.is_black(x, y) && !bitmap.is_black(x - 1, y) {
            let length = (x..).take_while(|x| bitmap.is_black(*x, y)).count();
            path += &format!("M{x} {y}h{length}v1h-{length}z");
        }
    }
    path
}

/// A path as the drawing has it, in pixels.
fn outline(path: &[PathStep]) -> String {
    let step = |step: &PathStep| match step {
        PathStep::Move(to) => format!("M{} {}", to.x, to.y),
        PathStep::Line(to) => format!("L{} {}", to.x, to.y),
        PathStep::Curve(by, to) => format!("Q{} {} {} {}", by.x, by.y, to.x, to.y),
        PathStep::Close => "Z".into(),
    };
    path.iter().map(step).collect()
}

/// Text that means itself in HTML.
pub fn escaped(text: &str) -> String {
    text.replace('&', "&amp;")
        .replace('<', "&lt;")
        .replace('>', "&gt;")
        .replace('"', "&quot;")
}
