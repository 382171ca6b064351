//! The numbers of edges and points, as text.

use crate::{
    chain::{name, Fitted, FittedAxis, Placing},
    report::pixels,
    specimen::Row,
};
use khsaemudol::{Edge, Flags, Mark};

/// The numbers of an edge.
pub fn edge_numbers(axis: &FittedAxis, number: usize) -> String {
    let edge = &axis.edges[number];
    let placed = match edge.mark() {
        Mark::Nothing => "nothing placed it",
        mark => mark.name(),
    };
    let mut text = format!(
        "{}, edge {number}: {placed}\n{}",
        name(axis.dimension),
        moved(edge.opos(), edge.pos())
    );
    text += &format!("\ndesign position {}", edge.fpos());
    if let Some(link) = edge.link() {
        let other = &axis.edges[usize::from(link)];
        let width = |of: fn(&Edge) -> i32| pixels((of(other) - of(edge)).abs());
        text += &format!(
            "\nstem with edge {link}, width {} → {}",
            width(Edge::opos),
            width(Edge::pos)
        );
    }
    if let Some(serif) = edge.serif() {
        text += &format!("\nserif of edge {serif}");
    }
    if edge.flags().contains(Flags::ROUND) {
        text += "\nround";
    }
    text
}

/// The numbers of a point.
pub fn point_numbers(row: &Row, fitted: &Fitted, point: usize) -> String {
    let curve = if row.on_curve[point] != 0 {
        "on the curve"
    } else {
        "off the curve"
    };
    let on = |axis: &FittedAxis, letter: &str| {
        let placed = match axis.placing[point] {
            Placing::Edge => axis.edge_of(point).map_or("touched".into(), |edge| {
                format!("touched, with {} edge {edge}", name(axis.dimension))
            }),
            Placing::Strong => "touched, strong".into(),
            Placing::Weak => "weak".into(),
            Placing::Nothing => "nothing placed it".into(),
        };
        format!(
            "\n{letter} {}: {placed}",
            moved(axis.before[point], axis.after[point])
        )
    };
    format!(
        "point {point}, {curve}{}{}",
        on(&fitted.widths, "x"),
        on(&fitted.heights, "y")
    )
}

/// From where to where, in pixels and in units.
fn moved(before: i32, after: i32) -> String {
    format!(
        "{} → {} pixels ({before} → {after} units)",
        pixels(before),
        pixels(after)
    )
}
