//! Words with names: what a job or an answer is written into.

use crate::{
    job::{
        Building, Catalogue, CjkStem, Dimension, Direction, Edge, Fit, Job, Joined, Points,
        References, ScriptGroup, Segment, Stems, Table, Walk, WidthRule,
    },
    limits::FIT_NUMBERS,
    mend::Alteration,
    path::Place,
};

/// A list of words, each with its field's name, and where records begin.
#[derive(Default)]
pub struct Words {
    pub values: Vec<i32>,
    pub names: Vec<&'static str>,
    pub heads: Vec<(usize, &'static str, usize)>,
}

impl Words {
    /// Appends one word.
    pub fn put(&mut self, name: &'static str, value: i32) {
        self.values.push(value);
        self.names.push(name);
    }

    /// Appends a choice.
    pub fn choice(&mut self, name: &'static str, value: bool) {
        self.put(name, value.into());
    }

    /// Appends a count.
    pub fn count(&mut self, name: &'static str, value: usize) {
        self.put(name, i32::try_from(value).expect("counts are small"));
    }

    /// Appends an index or its absence.
    pub fn index(&mut self, name: &'static str, index: Option<u16>) {
        self.put(name, index.map_or(-1, i32::from));
    }

    /// Appends a direction.
    pub fn direction(&mut self, name: &'static str, direction: Direction) {
        self.put(name, direction as i32);
    }

    /// Appends a dimension.
    pub fn dimension(&mut self, dim: Dimension) {
        self.put("dimension", dim as i32);
    }

    /// Appends a group.
    pub fn group(&mut self, group: ScriptGroup) {
        self.put("group", group as i32);
    }

    /// Appends a list of numbers.
    pub fn numbers<T: Copy + Into<i32>>(
        &mut self,
        count: &'static str,
        name: &'static str,
        list: &[T],
    ) {
        self.rest();
        self.count(count, list.len());
        for number in list {
            self.put(name, (*number).into());
        }
    }

    /// Appends a list of bytes, which a person reads as text.
    pub fn text(&mut self, count: &'static str, bytes: &[u8]) {
        self.rest();
        self.count(count, bytes.len());
        self.rest();
        for byte in bytes {
            self.put("byte", (*byte).into());
        }
    }

    /// Appends a width rule.
    pub fn rule(&mut self, rule: &WidthRule) {
        self.rule_kind(rule);
        self.standards(rule);
    }

    /// Appends whether a width rule keeps or snaps.
    fn rule_kind(&mut self, rule: &WidthRule) {
        self.choice("width rule", matches!(rule, WidthRule::Snap(_)));
    }

    /// Appends the standards of a width rule.
    fn standards(&mut self, rule: &WidthRule) {
        let (WidthRule::Keep(standards) | WidthRule::Snap(standards)) = rule;
        self.numbers("standards", "standard", standards);
    }

    /// Appends a segment.
    fn segment(&mut self, s: &Segment) {
        self.put("segment.flags", s.flags.to_bits().into());
        self.direction("segment.direction", s.dir);
        self.put("segment.pos", s.pos.into());
        self.put("segment.delta", s.delta.into());
        self.put("segment.min_coord", s.min_coord.into());
        self.put("segment.max_coord", s.max_coord.into());
        self.put("segment.height", s.height.into());
        self.put("segment.score", s.score);
        self.put("segment.len", s.len);
        self.index("segment.link", s.link_ix);
        self.index("segment.serif", s.serif_ix);
        self.put("segment.first", s.first_ix.into());
        self.put("segment.last", s.last_ix.into());
        self.index("segment.edge", s.edge_ix);
        self.index("segment.next", s.edge_next_ix);
    }

    /// Appends an edge.
    fn edge(&mut self, ix: usize, e: &Edge) {
        self.head("edge", ix);
        self.put("edge.fpos", e.fpos.into());
        self.put("edge.opos", e.opos);
        self.put("edge.pos", e.pos);
        self.put("edge.flags", e.flags.to_bits().into());
        self.direction("edge.direction", e.dir);
        self.choice("edge.blue", e.blue_edge.is_some());
        self.put("edge.fitted", e.blue_edge.map_or(0, |blue| blue.fitted));
        self.index("edge.link", e.link_ix);
        self.index("edge.serif", e.serif_ix);
        self.put("edge.first", e.first_ix.into());
        self.put("edge.last", e.last_ix.into());
        self.put("edge.mark", e.mark as i32);
    }

    /// Appends a table of segments.
    pub fn segments(&mut self, table: &Table<Segment>) {
        self.rest();
        self.count("segments", table.count);
        for (ix, segment) in table.items.iter().enumerate() {
            self.head("segment", ix);
            self.segment(segment);
        }
    }

    /// Appends places behind a table of segments, as they stand.
    pub fn places(&mut self, places: &[Segment]) {
        self.rest();
        self.count("places freed", places.len());
        for (ix, place) in places.iter().enumerate() {
            self.head("place", ix);
            self.segment(place);
        }
    }

    /// Appends what mending altered.
    pub fn alterations(&mut self, altered: &[Alteration]) {
        self.rest();
        self.count("alterations", altered.len());
        for (ix, alteration) in altered.iter().enumerate() {
            self.head("alteration", ix);
            self.put("table", alteration.side as i32);
            self.count("index", alteration.index);
            self.put("field", alteration.field as i32);
            self.index("old", alteration.old);
            self.index("new", alteration.new);
        }
    }

    /// Appends a table or list of edges.
    pub fn edges(&mut self, count: usize, items: &[Edge]) {
        self.rest();
        self.count("edges", count);
        for (ix, edge) in items.iter().enumerate() {
            self.edge(ix, edge);
        }
    }

    /// Appends a place: x and y as the bits of floats.
    pub fn place(&mut self, place: Place) {
        self.put("place.x", place.x.to_bits() as i32);
        self.put("place.y", place.y.to_bits() as i32);
    }

    /// Begins a record.
    pub fn head(&mut self, name: &'static str, ix: usize) {
        self.heads.push((self.values.len(), name, ix));
    }

    /// Begins a line that is no record.
    pub fn rest(&mut self) {
        self.head("", 0);
    }
}

/// A job as words.
pub fn encode(job: &Job) -> Words {
    let mut w = Words::default();
    match job {
        Job::MidPos(min, max) => pair(&mut w, 1, *min, *max),
        Job::MidDelta(min, max) => pair(&mut w, 2, *min, *max),
        Job::Weak(points) => {
            w.put("call", 3);
            outline(&mut w, points);
        }
        Job::Link(segments, major, units_per_em, scale) => {
            w.put("call", 4);
            w.segments(segments);
            w.rest();
            w.direction("major direction", *major);
            w.put("units per em", *units_per_em);
            w.put("scale", *scale);
        }
        Job::Build(segments, edges, given) => build(&mut w, segments, edges, given),
        Job::MLent(edges, group) => {
            w.put("call", 114);
            w.edges(edges.len(), edges);
            w.rest();
            w.group(*group);
        }
        _ => of_requests(&mut w, job),
    }
    w
}

/// The calls of document 02, and those on a table of edges.
fn of_requests(w: &mut Words, job: &Job) {
    match job {
        Job::Path(walk) => walked(w, 15, walk),
        Job::PathStep(walk, cursor) => {
            walked(w, 16, walk);
            w.rest();
            w.put("cursor", *cursor as i32);
        }
        Job::Shown(walk, magnify) => {
            walked(w, 132, walk);
            w.rest();
            w.put("magnify", *magnify);
        }
        Job::Catalogue(given) => catalogue(w, given),
        Job::Remember(touches, ends, list) => {
            w.put("call", 18);
            w.numbers("touch marks", "touch", touches);
            w.numbers("contour ends", "end", ends);
            references(w, list);
        }
        Job::WithReferences(points, list) => {
            w.put("call", 19);
            outline(w, points);
            references(w, list);
        }
        Job::Drag(points, point) => {
            w.put("call", 20);
            outline(w, points);
            w.rest();
            w.put("point", (*point).into());
        }
        Job::Mend(segments, edges) => axis(w, 121, segments, edges),
        Job::Pack(segments, edges) => axis(w, 123, segments, edges),
        Job::TurnOver(segments, edges) => axis(w, 124, segments, edges),
        Job::EdgePoints(segments, edges, given) => {
            axis(w, 128, segments, edges);
            w.rest();
            w.choice("snap", given.snap);
            w.choice("done alone", given.done_alone);
            w.numbers("currents", "current", &given.currents);
            w.numbers("touch marks", "touch", &given.touches);
            w.numbers("contour ends", "end", &given.ends);
        }
        Job::Fit(segments, edges, given) => fit(w, segments, edges, given),
        Job::WriteFrame(points, line) => {
            w.put("call", 25);
            outline(w, points);
            w.text("line", line);
        }
        Job::ReadFrame(line) => {
            w.put("call", 26);
            w.text("line", line);
        }
        _ => on_edges(w, job),
    }
}

/// Calls 121, 123 and 124, and the front of calls 128 and 129.
fn axis(w: &mut Words, call: i32, segments: &Table<Segment>, edges: &Table<Edge>) {
    w.put("call", call);
    w.segments(segments);
    w.edges(edges.count, &edges.items);
}

/// Call 129.
fn fit(w: &mut Words, segments: &Table<Segment>, edges: &Table<Edge>, given: &Fit) {
    axis(w, 129, segments, edges);
    w.rest();
    w.count("numbers", FIT_NUMBERS);
    w.dimension(given.dim);
    w.group(given.group);
    w.choice("stem adjust", given.stem_adjust);
    w.choice("snap", given.snap);
    w.choice("done alone", given.done_alone);
    w.rule_kind(&given.rule);
    w.choice("lowercase m", given.lowercase_m);
    w.put("least", given.least);
    w.choice("linked", given.linked);
    w.standards(&given.rule);
    w.numbers("font positions", "font", &given.fonts);
    w.numbers("originals", "original", &given.originals);
    w.numbers("currents", "current", &given.currents);
    w.numbers("touch marks", "touch", &given.touches);
    w.numbers("weak marks", "weak", &given.weak);
    w.numbers("contour ends", "end", &given.ends);
}

/// Calls 1 and 2.
fn pair(w: &mut Words, call: i32, min: i32, max: i32) {
    w.put("call", call);
    w.put("min", min);
    w.put("max", max);
}

/// One axis of an outline.
pub fn outline(w: &mut Words, points: &Points) {
    w.numbers("originals", "original", &points.originals);
    w.numbers("currents", "current", &points.currents);
    w.numbers("touch marks", "touch", &points.touches);
    w.numbers("contour ends", "end", &points.ends);
}

/// The list beside an outline.
pub fn references(w: &mut Words, list: &References) {
    w.numbers("before", "number before", &list.before);
    w.numbers("behind", "number behind", &list.behind);
}

/// Calls 15, 16 and 132 up to their contour ends.
fn walked(w: &mut Words, call: i32, walk: &Walk) {
    w.put("call", call);
    w.numbers("x coordinates", "x", &walk.xs);
    w.numbers("y coordinates", "y", &walk.ys);
    w.numbers("on-curve marks", "mark", &walk.marks);
    w.numbers("contour ends", "end", &walk.ends);
}

/// Call 17.
fn catalogue(w: &mut Words, given: &Catalogue) {
    w.put("call", 17);
    outline(w, &given.shared);
    w.numbers("point counts", "points", &given.point_counts);
    w.numbers("contour counts", "contours", &given.contour_counts);
    w.numbers("answers", "own answer", &given.answers);
}

/// Call 105.
fn build(w: &mut Words, segments: &Table<Segment>, edges: &Table<Edge>, given: &Building) {
    w.put("call", 105);
    w.segments(segments);
    w.edges(edges.count, &edges.items);
    w.rest();
    w.dimension(given.dim);
    w.direction("major direction", given.major);
    w.group(given.group);
    w.choice("top to bottom", given.top_to_bottom);
    w.put("scale", given.scale);
    w.put("distance threshold", given.distance);
    w.put("length threshold", given.length);
    w.put("width threshold", given.width);
}

/// Calls 106 to 113, 122, 127, 130 and 131: a table of edges first.
fn on_edges(w: &mut Words, job: &Job) {
    let (call, edges) = match job {
        Job::Blues(edges, ..) => (106, edges),
        Job::Linked(edges, ..) => (107, edges),
        Job::Serif(edges, ..) => (108, edges),
        Job::Adjust(edges, ..) => (109, edges),
        Job::Bounds(edges, ..) => (110, edges),
        Job::CjkStem(edges, ..) => (111, edges),
        Job::Stems(edges, ..) => (112, edges),
        Job::M(edges, ..) => (113, edges),
        Job::Joined(edges, ..) => (122, edges),
        Job::Gaps(edges, ..) => (127, edges),
        Job::Remaining(edges, ..) => (130, edges),
        Job::Strong(edges, ..) => (131, edges),
        _ => unreachable!("the other calls are not on a table of edges"),
    };
    w.put("call", call);
    w.edges(edges.count, &edges.items);
    w.rest();
    behind_edges(w, job);
}

/// What stands behind the edges in these calls.
fn behind_edges(w: &mut Words, job: &Job) {
    match job {
        Job::Blues(_, dim, group, rule) => {
            w.dimension(*dim);
            w.group(*group);
            w.rule(rule);
        }
        Job::Linked(_, rule, base, stem) => {
            w.rule(rule);
            w.rest();
            w.put("base edge", (*base).into());
            w.put("stem edge", (*stem).into());
        }
        Job::Serif(_, base, serif) => {
            w.put("base edge", (*base).into());
            w.put("serif edge", (*serif).into());
        }
        Job::Adjust(_, edge, next, top_to_bottom) => {
            w.put("edge", (*edge).into());
            w.choice("next", *next);
            w.choice("top to bottom", *top_to_bottom);
        }
        Job::Bounds(_, edge) => w.put("edge", (*edge).into()),
        Job::CjkStem(_, given) => cjk_stem(w, given),
        Job::Stems(_, given) => stems(w, given),
        Job::M(_, group) => w.group(*group),
        Job::Joined(_, given) => joined(w, given),
        Job::Gaps(_, least, linked) => {
            w.put("least", *least);
            w.choice("linked", *linked);
        }
        Job::Remaining(_, given) => {
            w.dimension(given.dim);
            w.group(given.group);
            w.put("count", given.count.into());
            w.index("anchor", given.anchor);
        }
        Job::Strong(_, given) => {
            w.numbers("font positions", "font", &given.fonts);
            w.numbers("originals", "original", &given.originals);
            w.numbers("currents", "current", &given.currents);
            w.numbers("touch marks", "touch", &given.touches);
            w.numbers("weak marks", "weak", &given.weak);
        }
        _ => unreachable!("the other calls are not on a table of edges"),
    }
}

/// Call 111 behind its edges.
fn cjk_stem(w: &mut Words, given: &CjkStem) {
    w.dimension(given.dim);
    w.choice("stem adjust", given.stem_adjust);
    w.rule(&given.rule);
    w.rest();
    w.put("edge", given.edge.into());
    w.put("second edge", given.edge2.into());
    w.put("delta", given.delta);
}

/// Call 112 behind its edges.
fn stems(w: &mut Words, given: &Stems) {
    w.dimension(given.dim);
    w.group(given.group);
    w.choice("stem adjust", given.stem_adjust);
    w.choice("top to bottom", given.top_to_bottom);
    w.index("anchor", given.anchor);
    w.rule(&given.rule);
}

/// Call 122 behind its edges.
fn joined(w: &mut Words, given: &Joined) {
    w.dimension(given.dim);
    w.group(given.group);
    w.choice("stem adjust", given.stem_adjust);
    w.choice("top to bottom", given.top_to_bottom);
    w.rule(&given.rule);
}
