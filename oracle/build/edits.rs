//! What is taken from the given files, and every edit made to it.

/// One given file, the items taken from it, and the file that they are written to.
pub struct Taken {
    pub file: &'static str,
    pub out: &'static str,
    pub part: Part,
    /// The functions in it that the calls use: those whose branches are counted.
    pub used: &'static [&'static str],
}

/// Which part of a file is taken.
pub enum Part {
    /// All from this line on: what stands before is the file's title, modules and imports.
    From(&'static str),
    /// The items of these names, each with its comment.
    Items(&'static [&'static str]),
}

/// The given files, leaves first.
pub const TAKEN: &[Taken] = &[
    Taken {
        file: "topo/mod.rs",
        out: "topo.rs",
        part: Part::From("/// Source for an alignment zone."),
        used: &["insert_edge", "append_segment_to_edge"],
    },
    Taken {
        file: "topo/segments.rs",
        out: "topo_segments.rs",
        part: Part::Items(SEGMENTS),
        used: SEGMENTS,
    },
    Taken {
        file: "topo/edges.rs",
        out: "topo_edges.rs",
        part: Part::Items(BUILDING),
        used: BUILDING,
    },
    Taken {
        file: "hint/edges.rs",
        out: "hint_edges.rs",
        part: Part::Items(FITTING),
        used: FITTING,
    },
    Taken {
        file: "hint/outline.rs",
        out: "hint_outline.rs",
        part: Part::Items(POINTS),
        used: POINTS,
    },
];

/// Taken from topo/segments.rs.
const SEGMENTS: &[&str] = &["link_segments_cjk", "compute_mid_pos", "compute_mid_delta"];

/// Taken from topo/edges.rs.
const BUILDING: &[&str] = &[
    "compute_edges",
    "link_segments_to_edges",
    "compute_edge_properties",
];

/// Taken from hint/edges.rs.
const FITTING: &[&str] = &[
    "align_edges_to_blues",
    "align_stem_edges",
    "hint_lowercase_m",
    "align_remaining_edges",
    "LinkDir",
    "adjust_link",
    "latin_remaining_bounds",
    "find_bounding_completed_edges",
    "align_linked_edge",
    "align_serif_edge",
    "hint_normal_stem_cjk",
];

/// Taken from hint/outline.rs.
const POINTS: &[&str] = &[
    "align_edge_points",
    "align_strong_points",
    "align_weak_points",
    "store_point",
    "iup_shift",
    "iup_interpolate",
];

/// One mechanical edit: in `file`, `from` becomes `to`, exactly `times` times.
pub struct Edit {
    pub name: &'static str,
    pub file: &'static str,
    pub from: &'static str,
    pub to: &'static str,
    pub times: usize,
}

/// Every edit.
pub const EDITS: &[Edit] = &[
    Edit {
        name: "mark of an edge",
        file: "topo/mod.rs",
        from: "pub(crate) last_ix: u16,\n}",
        to: "pub(crate) last_ix: u16, pub(crate) mark: Mark,\n}",
        times: 1,
    },
    Edit {
        name: "visibility of functions",
        file: "topo/segments.rs",
        from: "\nfn ",
        to: "\npub(crate) fn ",
        times: 3,
    },
    Edit {
        name: "visibility of functions",
        file: "hint/edges.rs",
        from: "\nfn ",
        to: "\npub(crate) fn ",
        times: 10,
    },
    Edit {
        name: "visibility of LinkDir",
        file: "hint/edges.rs",
        from: "\nenum LinkDir {",
        to: "\npub(crate) enum LinkDir {",
        times: 1,
    },
    Edit {
        name: "CJK stems recorded as Latin ones",
        file: "hint/edges.rs",
        from: "let edge2 = &mut axis.edges[edge2_ix];",
        to: "if let Some(recorder) = recorder.as_mut() { recorder.record_edge(axis.dim, EdgeAction::Stem, edge_ix, Some(edge2_ix), None, None, None, None); } let edge2 = &mut axis.edges[edge2_ix];",
        times: 1,
    },
    Edit {
        name: "CJK edges with a serif recorded as Latin ones",
        file: "hint/edges.rs",
        from: "serif_count = serif_count.saturating_sub(1);",
        to: "serif_count = serif_count.saturating_sub(1); if let Some(recorder) = recorder.as_mut() { recorder.record_edge(axis.dim, EdgeAction::Serif, edge_ix, Some(serif_ix), None, None, None, None); }",
        times: 1,
    },
    Edit {
        name: "CJK edges behind the only done one recorded as serifs",
        file: "hint/edges.rs",
        from: "(Some(before_ix), None) => {",
        to: "(Some(before_ix), None) => { if let Some(recorder) = recorder.as_mut() { recorder.record_edge(axis.dim, EdgeAction::Serif, edge_ix, Some(before_ix), None, None, None, None); }",
        times: 1,
    },
    Edit {
        name: "CJK edges before the only done one recorded as serifs",
        file: "hint/edges.rs",
        from: "(None, Some(after_ix)) => {",
        to: "(None, Some(after_ix)) => { if let Some(recorder) = recorder.as_mut() { recorder.record_edge(axis.dim, EdgeAction::Serif, edge_ix, Some(after_ix), None, None, None, None); }",
        times: 1,
    },
    Edit {
        name: "CJK edges between done ones recorded as Latin ones",
        file: "hint/edges.rs",
        from: "let before = edges[before_ix];",
        to: "if let Some(recorder) = recorder.as_mut() { recorder.record_edge(axis.dim, EdgeAction::SerifLink1, edge_ix, Some(before_ix), Some(after_ix), None, None, None); } let before = edges[before_ix];",
        times: 1,
    },
    Edit {
        name: "the fallback of the stem pass counted",
        file: "hint/edges.rs",
        from: "// This should not happen, but match the C fallback.",
        to: "if let Some(recorder) = recorder.as_mut().filter(|_| edge2_has_blue) { recorder.fallbacks += 1; }",
        times: 1,
    },
    Edit {
        name: "length threshold from the caller",
        file: "topo/edges.rs",
        from: "if axis.dim == Dimension::Horizontal {\n        fixed_div(64, y_scale)\n    } else {\n        0\n    };",
        to: "metrics.segment_length_threshold;\n\n\n\n",
        times: 1,
    },
    Edit {
        name: "width threshold from the caller",
        file: "topo/edges.rs",
        from: "let segment_width_threshold = fixed_div(32, scale);",
        to: "let segment_width_threshold = metrics.segment_width_threshold;",
        times: 1,
    },
];

/// Makes the edits of one file, or stops the build where a count differs.
pub fn apply(file: &str, mut code: String) -> String {
    for edit in EDITS.iter().filter(|edit| edit.file == file) {
        let found = code.matches(edit.from).count();
        assert_eq!(found, edit.times, "edit \"{}\" of {file}", edit.name);
        code = code.replace(edit.from, edit.to);
    }
    code
}
