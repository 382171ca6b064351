//! Which branches of the given Rust were taken, and which no accepted input can take.

use std::sync::atomic::{AtomicBool, AtomicU64, Ordering::Relaxed};

/// A counted branch; a match arm is one-sided.
pub struct Branch {
    file: &'static str,
    line: usize,
    text: &'static str,
    one_sided: bool,
}

/// The branches, by number.
const BRANCHES: &[Branch] = include!(concat!(env!("OUT_DIR"), "/branches.rs"));

/// How often each went to its false and its true side.
static TAKEN: [[AtomicU64; 2]; BRANCHES.len()] =
    [const { [const { AtomicU64::new(0) }; 2] }; BRANCHES.len()];

/// Sides that no accepted input takes: file, text, side, reason.
const UNREACHABLE: &[(&str, &str, bool, &str)] = &[
    (
        "topo/mod.rs",
        "(top_to_bottom_hinting && prev_fpos > edge.fpos)",
        true,
        OLD_ORDER,
    ),
    ("topo/mod.rs", "top_to_bottom_hinting", true, OLD_ORDER),
    ("topo/mod.rs", "prev_fpos > edge.fpos", true, OLD_ORDER),
    ("topo/mod.rs", "prev_fpos > edge.fpos", false, OLD_ORDER),
    ("topo/mod.rs", "!top_to_bottom_hinting", false, OLD_ORDER),
    (
        "topo/edges.rs",
        "if let Some(next) = seg1.next_in_edge(&axis.segments)",
        false,
        "every segment of an edge has a next: the ring is closed",
    ),
    (
        "topo/edges.rs",
        "if let Some(segment2_ix) = segment2_ix",
        false,
        "the serif or link is there: that was asked before",
    ),
    (
        "hint/edges.rs",
        "(edge2, edges.get(edge_ix.checked_sub(1)?)?",
        false,
        "the edge in front of a given one is in the table",
    ),
    (
        "hint/edges.rs",
        "let edge = edges.get(edge_ix.checked_sub(1)?)?",
        false,
        "the edge in front of a given one is in the table",
    ),
    (
        "hint/edges.rs",
        "d_off2 <= offset",
        true,
        "with more than the offset above the first edge the second stands that much and d_off1 above its floor",
    ),
    (
        "hint/outline.rs",
        "let point = points.get_mut(point_ix)?",
        false,
        "the points of a segment with an edge are in the outline",
    ),
    ("hint/outline.rs", "let edge = edges.first()?", false, SOME_EDGE),
    ("hint/outline.rs", "let edge = edges.last()?", false, SOME_EDGE),
    (
        "hint/outline.rs",
        "if let Some((min_ix, edge)) = edges .iter() .enumerate() .find(|(_ix, edge)| edge.fpos as i32 >= u)",
        false,
        WITHIN,
    ),
    (
        "hint/outline.rs",
        "if let Some(before_ix) = min_ix.checked_sub(1)",
        false,
        WITHIN,
    ),
    ("hint/outline.rs", "let edge_before = edges.get(before_ix)?", false, WITHIN),
    ("hint/outline.rs", "let edge_after = edges.get(min_ix)?", false, WITHIN),
    (
        "hint/outline.rs",
        "let points = outline.points.get_mut(contour.range())?",
        false,
        CONTOUR,
    ),
    (
        "hint/outline.rs",
        "while point_ix < last_ix && points.get(point_ix + 1)?",
        false,
        CONTOUR,
    ),
    ("hint/outline.rs", "let ref_point = points.get(ref_ix)?", false, CONTOUR),
    (
        "hint/outline.rs",
        "for point in points.get_mut(p1_ix..ref_ix)?",
        false,
        CONTOUR,
    ),
    (
        "hint/outline.rs",
        "for point in points.get_mut(ref_ix + 1..=p2_ix)?",
        false,
        CONTOUR,
    ),
    ("hint/outline.rs", "let mut ref_point1 = points.get(ref1_ix)?", false, CONTOUR),
    ("hint/outline.rs", "let mut ref_point2 = points.get(ref2_ix)?", false, CONTOUR),
    (
        "hint/outline.rs",
        "for point in points.get_mut(p1_ix..=p2_ix)?",
        false,
        CONTOUR,
    ),
    (
        "hint/outline.rs",
        "p1_ix > p2_ix",
        true,
        "touched neighbours are skipped, so an untouched point stands between",
    ),
];

/// Why nothing is built from top to bottom.
const OLD_ORDER: &str = "top to bottom is refused by 10";

/// Why there is an edge.
const SOME_EDGE: &str = "without edges nothing is asked";

/// Why a strong point has an edge on both sides.
const WITHIN: &str = "the first edge is before the point, and the last one behind it";

/// Why a point is always found.
const CONTOUR: &str = "the points of a contour are in the outline";

/// Whether what is taken is counted: not while jobs are made up, which runs the given Rust too.
static COUNTING: AtomicBool = AtomicBool::new(true);

/// Runs something whose branches are not counted.
pub fn uncounted<T>(run: impl FnOnce() -> T) -> T {
    COUNTING.store(false, Relaxed);
    let result = run();
    COUNTING.store(true, Relaxed);
    result
}

/// Counts one side.
pub fn went(id: usize, side: bool) {
    if COUNTING.load(Relaxed) {
        TAKEN[id][usize::from(side)].fetch_add(1, Relaxed);
    }
}

/// Counts a condition and hands it on.
pub fn seen(id: usize, condition: bool) -> bool {
    went(id, condition);
    condition
}

/// Counting in front of a `?`.
pub trait Counted {
    /// Counts whether it is there and hands it on.
    fn counted(self, id: usize) -> Self;
}

impl<T> Counted for Option<T> {
    fn counted(self, id: usize) -> Self {
        went(id, self.is_some());
        self
    }
}

/// The report, and whether every side was taken or is known to be out of reach.
pub fn report() -> (String, bool) {
    let mut rows = sides();
    rows.sort_by_key(|(branch, ..)| (branch.file, branch.line));
    let mut text = String::new();
    let mut totals = [0; 3];
    for (branch, side, count) in &rows {
        let (kind, said) = verdict(*count, reason(branch, *side));
        totals[kind] += 1;
        let Branch {
            file,
            line,
            text: code,
            ..
        } = branch;
        text += &format!("{file}:{line} {code} {side}: {said}\n");
    }
    let [taken, known, wrong] = totals;
    text += &format!(
        "{} branches, {} sides: {taken} taken, {known} out of reach, {wrong} wrong\n",
        BRANCHES.len(),
        rows.len()
    );
    (text, wrong == 0)
}

/// Every side of every branch, and how often it was taken.
fn sides() -> Vec<(&'static Branch, bool, u64)> {
    let mut rows = Vec::new();
    for (branch, counts) in BRANCHES.iter().zip(&TAKEN) {
        let [not, yes] = counts;
        rows.push((branch, true, yes.load(Relaxed)));
        if !branch.one_sided {
            rows.push((branch, false, not.load(Relaxed)));
        }
    }
    rows
}

/// What a side comes to: 0 taken, 1 out of reach, 2 wrong.
fn verdict(count: u64, reason: Option<&str>) -> (usize, String) {
    match (count, reason) {
        (0, Some(reason)) => (1, format!("out of reach, {reason}")),
        (0, None) => (2, String::from("NOT TAKEN")),
        (_, Some(_)) => (2, format!("{count}, BUT LISTED AS OUT OF REACH")),
        (_, None) => (0, count.to_string()),
    }
}

/// Why a side is out of reach.
fn reason(branch: &Branch, side: bool) -> Option<&'static str> {
    UNREACHABLE
        .iter()
        .find(|row| (row.0, row.1, row.2) == (branch.file, branch.text, side))
        .map(|row| row.3)
}
