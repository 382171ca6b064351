//! Jobs: the calls with everything that they are given.

pub use crate::given::{
    metrics::{ScaledWidth, WidthRule},
    outline::Direction,
    recorder::Mark,
    style::ScriptGroup,
    topo::{Dimension, Edge, Segment, TopoFlags},
};

/// A list as it was given: its count, and as many elements as the working table holds.
#[derive(Clone, PartialEq, Debug)]
pub struct Table<T> {
    pub count: usize,
    pub items: Vec<T>,
}

impl<T> Table<T> {
    /// A table that holds all of its list.
    pub fn of(items: Vec<T>) -> Self {
        Self {
            count: items.len(),
            items,
        }
    }
}

/// One axis of an outline.
#[derive(Clone, PartialEq, Debug)]
pub struct Points {
    pub originals: Vec<i32>,
    pub currents: Vec<i32>,
    pub touches: Vec<u8>,
    pub ends: Vec<u16>,
}

impl Points {
    /// An outline of no points.
    pub fn none() -> Self {
        Self {
            originals: Vec::new(),
            currents: Vec::new(),
            touches: Vec::new(),
            ends: Vec::new(),
        }
    }
}

/// The list beside an outline: two numbers for each point, which say what is known of its references.
#[derive(Clone, PartialEq, Debug)]
pub struct References {
    pub before: Vec<u16>,
    pub behind: Vec<u16>,
}

/// Both axes of an outline with its on-curve marks, to be walked.
#[derive(Clone, PartialEq, Debug)]
pub struct Walk {
    pub xs: Vec<i32>,
    pub ys: Vec<i32>,
    pub marks: Vec<u8>,
    pub ends: Vec<u16>,
}

/// Outlines one behind another: their points in shared lists, their counts, and room for their answers.
#[derive(Clone, PartialEq, Debug)]
pub struct Catalogue {
    pub shared: Points,
    pub point_counts: Vec<u16>,
    pub contour_counts: Vec<u16>,
    pub answers: Vec<u8>,
}

/// What building is told beside its tables.
#[derive(Copy, Clone, PartialEq, Debug)]
pub struct Building {
    pub dim: Dimension,
    pub major: Direction,
    pub group: ScriptGroup,
    pub top_to_bottom: bool,
    pub scale: i32,
    pub distance: i32,
    pub length: i32,
    pub width: i32,
}

/// What the CJK stem is told beside its edges.
#[derive(Clone, PartialEq, Debug)]
pub struct CjkStem {
    pub dim: Dimension,
    pub stem_adjust: bool,
    pub rule: WidthRule,
    pub edge: u16,
    pub edge2: u16,
    pub delta: i32,
}

/// What the stem pass is told beside its edges.
#[derive(Clone, PartialEq, Debug)]
pub struct Stems {
    pub dim: Dimension,
    pub group: ScriptGroup,
    pub stem_adjust: bool,
    pub top_to_bottom: bool,
    pub anchor: Option<u16>,
    pub rule: WidthRule,
}

/// What blues and stems in one call are told beside their edges.
#[derive(Clone, PartialEq, Debug)]
pub struct Joined {
    pub dim: Dimension,
    pub group: ScriptGroup,
    pub stem_adjust: bool,
    pub top_to_bottom: bool,
    pub rule: WidthRule,
}

/// What remaining edges are told beside their edges.
#[derive(Copy, Clone, PartialEq, Debug)]
pub struct Remaining {
    pub dim: Dimension,
    pub group: ScriptGroup,
    pub count: u16,
    pub anchor: Option<u16>,
}

/// What edge points are told beside their axis: two choices, and the points that are moved.
#[derive(Clone, PartialEq, Debug)]
pub struct EdgePoints {
    pub snap: bool,
    pub done_alone: bool,
    pub currents: Vec<i32>,
    pub touches: Vec<u8>,
    pub ends: Vec<u16>,
}

/// What strong points are told beside their edges: the points.
#[derive(Clone, PartialEq, Debug)]
pub struct Strong {
    pub fonts: Vec<i16>,
    pub originals: Vec<i32>,
    pub currents: Vec<i32>,
    pub touches: Vec<u8>,
    pub weak: Vec<u8>,
}

/// What fitting an axis is told beside it: the choices of its steps, and the points that they move.
#[derive(Clone, PartialEq, Debug)]
pub struct Fit {
    pub dim: Dimension,
    pub group: ScriptGroup,
    pub stem_adjust: bool,
    pub snap: bool,
    pub done_alone: bool,
    pub rule: WidthRule,
    pub lowercase_m: bool,
    pub least: i32,
    pub linked: bool,
    pub fonts: Vec<i16>,
    pub originals: Vec<i32>,
    pub currents: Vec<i32>,
    pub touches: Vec<u8>,
    pub weak: Vec<u8>,
    pub ends: Vec<u16>,
}

/// A public call and what it is given; the fields stand in the order of the words.
#[derive(Clone, PartialEq, Debug)]
pub enum Job {
    MidPos(i32, i32),
    MidDelta(i32, i32),
    Weak(Points),
    Link(Table<Segment>, Direction, i32, i32),
    Build(Table<Segment>, Table<Edge>, Building),
    Blues(Table<Edge>, Dimension, ScriptGroup, WidthRule),
    Linked(Table<Edge>, WidthRule, u16, u16),
    Serif(Table<Edge>, u16, u16),
    Adjust(Table<Edge>, u16, bool, bool),
    Bounds(Table<Edge>, u16),
    CjkStem(Table<Edge>, CjkStem),
    Stems(Table<Edge>, Stems),
    M(Table<Edge>, ScriptGroup),
    MLent(Vec<Edge>, ScriptGroup),
    Path(Walk),
    PathStep(Walk, u32),
    Catalogue(Catalogue),
    Remember(Vec<u8>, Vec<u16>, References),
    WithReferences(Points, References),
    Drag(Points, u16),
    Joined(Table<Edge>, Joined),
    Mend(Table<Segment>, Table<Edge>),
    Pack(Table<Segment>, Table<Edge>),
    TurnOver(Table<Segment>, Table<Edge>),
    Gaps(Table<Edge>, i32, bool),
    EdgePoints(Table<Segment>, Table<Edge>, EdgePoints),
    Fit(Table<Segment>, Table<Edge>, Fit),
    Remaining(Table<Edge>, Remaining),
    Strong(Table<Edge>, Strong),
    Shown(Walk, i32),
    WriteFrame(Points, Vec<u8>),
    ReadFrame(Vec<u8>),
}

/// The calls: each one's word in a job, and its name.
pub const CALLS: &[(usize, &str)] = &[
    (1, "compute_mid_pos"),
    (2, "compute_mid_delta"),
    (3, "align_weak_points"),
    (4, "link_segments_cjk"),
    (15, "path"),
    (16, "path_step"),
    (17, "align_catalogue"),
    (18, "remember_references"),
    (19, "align_with_references"),
    (20, "drag_point"),
    (25, "write_frame"),
    (26, "read_frame"),
    (105, "compute_edges"),
    (106, "align_edges_to_blues"),
    (107, "align_linked_edge"),
    (108, "align_serif_edge"),
    (109, "adjust_link"),
    (110, "latin_remaining_bounds"),
    (111, "hint_normal_stem_cjk"),
    (112, "align_stem_edges"),
    (113, "hint_lowercase_m (table)"),
    (114, "hint_lowercase_m (lent list)"),
    (121, "mend"),
    (122, "align_blues_and_stems"),
    (123, "pack_axis"),
    (124, "turn_over"),
    (127, "lost_gaps"),
    (128, "align_edge_points"),
    (129, "fit_axis"),
    (130, "align_remaining_edges"),
    (131, "align_strong_points"),
    (132, "count_shown"),
];

/// The name of the call that a word names, if it names one.
pub fn name_of(word: usize) -> Option<&'static str> {
    let call = CALLS.iter().find(|call| call.0 == word)?;
    Some(call.1)
}
