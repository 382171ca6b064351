//! Document 01's rows, its slips, its refusals, the calls of document 02, marks, the log, and the word form.

mod catalogue;
mod catalogue_slips;
mod drag;
mod drag_slips;
mod edge_points;
mod fit;
mod frames;
mod gaps;
mod joined;
mod log;
mod marks;
mod marks_slips;
mod mend;
mod mender;
mod order;
mod pack;
mod panels;
mod path;
mod path_slips;
mod references;
mod references_slips;
mod refusals;
mod remaining;
mod rows;
mod shown;
mod slips;
mod strong;
mod words;

use crate::{
    answer::answer_line,
    decode::decode,
    job::{Edge, Job, Segment, Table, TopoFlags, Walk, WidthRule},
    text,
};

/// The rule that keeps every width.
fn keep() -> WidthRule {
    WidthRule::Keep(Vec::new())
}

/// An edge at an original position, unmoved.
fn edge(opos: i32) -> Edge {
    Edge {
        opos,
        pos: opos,
        ..Edge::default()
    }
}

/// An edge that is linked.
fn linked(opos: i32, link: u16) -> Edge {
    Edge {
        link_ix: Some(link),
        ..edge(opos)
    }
}

/// An edge that is done.
fn done(edge: Edge) -> Edge {
    Edge {
        flags: edge.flags | TopoFlags::DONE,
        ..edge
    }
}

/// The positions of edges.
fn positions(edges: &Table<Edge>) -> Vec<i32> {
    edges.items.iter().map(|edge| edge.pos).collect()
}

/// A segment at a position.
fn segment(pos: i16) -> Segment {
    Segment {
        pos,
        score: 32_000,
        ..Segment::default()
    }
}

/// An outline to be walked.
fn walk(xs: &[i32], ys: &[i32], marks: &[u8], ends: &[u16]) -> Walk {
    Walk {
        xs: xs.to_vec(),
        ys: ys.to_vec(),
        marks: marks.to_vec(),
        ends: ends.to_vec(),
    }
}

/// The words of the answer to a line.
fn decoded(line: &str) -> Vec<i32> {
    text::parse(answer_line(line.as_bytes()).as_bytes()).expect("an answer is whole words")
}

/// The job of a line, if it is one.
fn job_of(line: &[u8]) -> Option<Job> {
    text::parse(line).and_then(|words| decode(&words))
}
