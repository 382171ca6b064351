//! Jobs answered by the oracle, as words and as text.

use crate::{
    calls,
    decode::decode,
    drag, edge_points, fit, frames,
    gaps::{self, Lost},
    job::{Job, Points},
    joined, mend, pack,
    path::Step,
    references,
    refusals::{Answer, Refusal},
    remaining, shown, strong, text, turn,
    words::{self, Words},
};

/// The kind of a cursor that names no step.
const FINISHED: i32 = 0;

/// The answer to what is not a job.
pub const NOT_A_JOB: i32 = -1;

/// The answer line to a job line, both without their line feeds.
pub fn answer_line(line: &[u8]) -> String {
    match text::parse(line).and_then(|words| decode(&words)) {
        Some(job) => text::write(&answer(job).values),
        None => text::write(&[NOT_A_JOB]),
    }
}

/// A job's answer.
pub fn answer(job: Job) -> Words {
    let mut w = Words::default();
    match job {
        Job::MidPos(min, max) => value(&mut w, calls::compute_mid_pos(min, max)),
        Job::MidDelta(min, max) => value(&mut w, calls::compute_mid_delta(min, max)),
        Job::Weak(mut points) => {
            done(&mut w, calls::align_weak_points(&mut points));
            w.numbers("currents", "current", &points.currents);
        }
        Job::Link(mut segments, major, units_per_em, scale) => {
            let result = calls::link_segments_cjk(&mut segments, major, units_per_em, scale);
            done(&mut w, result);
            w.segments(&segments);
        }
        Job::Build(mut segments, mut edges, given) => {
            let result = calls::compute_edges(&mut segments, &mut edges, &given);
            done(&mut w, result);
            w.segments(&segments);
            w.edges(edges.count, &edges.items);
        }
        Job::Path(_)
        | Job::PathStep(..)
        | Job::Catalogue(_)
        | Job::Remember(..)
        | Job::WithReferences(..)
        | Job::Drag(..)
        | Job::Mend(..)
        | Job::Pack(..)
        | Job::TurnOver(..)
        | Job::EdgePoints(..)
        | Job::Fit(..)
        | Job::Strong(..)
        | Job::Shown(..)
        | Job::Gaps(..)
        | Job::WriteFrame(..)
        | Job::ReadFrame(_) => of_requests(&mut w, job),
        Job::MLent(mut edges, group) => {
            done(&mut w, calls::hint_lowercase_m_lent(&mut edges, group));
            w.edges(edges.len(), &edges);
        }
        Job::Bounds(edges, edge) => {
            let bounds = number(&mut w, calls::latin_remaining_bounds(&edges, edge));
            let [lower, upper] = bounds.unwrap_or([None, None]);
            index(&mut w, "lower", lower);
            index(&mut w, "upper", upper);
        }
        job => on_edges(&mut w, job),
    }
    w
}

/// The calls of document 02.
fn of_requests(w: &mut Words, job: Job) {
    match job {
        Job::Path(walk) => {
            let steps = number(w, calls::path(&walk)).unwrap_or_default();
            w.count("steps", steps.len());
            for (ix, step) in steps.iter().enumerate() {
                w.head("step", ix);
                put_step(w, step);
            }
        }
        Job::PathStep(walk, cursor) => {
            let step = number(w, calls::path_step(&walk, cursor)).flatten();
            one_step(w, step, cursor);
        }
        Job::Catalogue(mut given) => {
            done(w, calls::align_catalogue(&mut given));
            w.numbers("currents", "current", &given.shared.currents);
            w.numbers("answers", "own answer", &given.answers);
        }
        Job::Remember(touches, ends, mut list) => {
            let result = references::remember_references(&touches, &ends, &mut list);
            done(w, result);
            words::references(w, &list);
        }
        Job::WithReferences(mut points, list) => {
            done(w, references::align_with_references(&mut points, &list));
            w.numbers("currents", "current", &points.currents);
        }
        Job::Drag(mut points, point) => {
            done(w, drag::drag_point(&mut points, point.into()));
            w.numbers("currents", "current", &points.currents);
        }
        Job::Mend(mut segments, mut edges) => {
            let altered = number(w, mend::mend(&mut segments, &mut edges)).unwrap_or_default();
            w.segments(&segments);
            w.edges(edges.count, &edges.items);
            w.alterations(&altered);
        }
        Job::Pack(mut segments, mut edges) => {
            let freed = number(w, pack::pack(&mut segments, &mut edges)).unwrap_or_default();
            w.segments(&segments);
            w.edges(edges.count, &edges.items);
            w.places(&freed);
        }
        Job::TurnOver(mut segments, mut edges) => {
            done(w, turn::turn_over(&mut segments, &mut edges));
            w.segments(&segments);
            w.edges(edges.count, &edges.items);
        }
        Job::EdgePoints(segments, edges, mut given) => {
            let result = edge_points::align_edge_points(&segments, &edges, &mut given);
            done(w, result);
            w.numbers("currents", "current", &given.currents);
            w.numbers("touch marks", "touch", &given.touches);
        }
        Job::Fit(segments, mut edges, mut given) => {
            let result = fit::fit_axis(&segments, &mut edges, &mut given);
            let fitted = number(w, result).unwrap_or_default();
            w.count("gaps lost", fitted.lost.gaps);
            w.count("stems lost", fitted.lost.stems);
            w.count("not done", fitted.lost.not_done);
            first_lost(w, &fitted.lost);
            w.count("passed over", fitted.passed_over);
            index(w, "anchor", fitted.anchor);
            w.edges(edges.count, &edges.items);
            w.numbers("currents", "current", &given.currents);
            w.numbers("touch marks", "touch", &given.touches);
        }
        Job::Strong(edges, mut given) => {
            done(w, strong::align_strong_points(&edges, &mut given));
            w.numbers("currents", "current", &given.currents);
            w.numbers("touch marks", "touch", &given.touches);
        }
        Job::Shown(walk, magnify) => {
            let shown = number(w, shown::count_shown(&walk, magnify)).unwrap_or_default();
            w.count("black", shown.black);
            w.put("Euler number", shown.euler);
        }
        Job::Gaps(edges, least, linked) => {
            let lost = number(w, gaps::lost_gaps(&edges, least, linked)).unwrap_or_default();
            w.count("gaps lost", lost.gaps);
            first_lost(w, &lost);
            w.count("stems lost", lost.stems);
            w.count("not done", lost.not_done);
        }
        Job::WriteFrame(points, mut line) => {
            let digits = number(w, frames::write_frame(&points, &mut line));
            w.count("digits", digits.unwrap_or(0));
            w.text("line", &line);
        }
        Job::ReadFrame(line) => {
            let points = number(w, frames::read_frame(&line));
            words::outline(w, &points.unwrap_or_else(Points::none));
        }
        _ => unreachable!("the other calls are document 01's"),
    }
}

/// Appends the first pair that the guard finds lost: its edges and its widths.
fn first_lost(w: &mut Words, lost: &Lost) {
    index(w, "first edge", lost.first.map(|pair| pair.first));
    index(w, "second edge", lost.first.map(|pair| pair.second));
    w.put("width before", lost.first.map_or(0, |pair| pair.before));
    w.put("width after", lost.first.map_or(0, |pair| pair.after));
}

/// Appends a step: its kind and its places.
fn put_step(w: &mut Words, step: &Step) {
    w.put("kind", step.kind());
    for place in step.places() {
        w.place(place);
    }
}

/// Appends the step that a cursor named, or that there is none, with room for two places and the next cursor.
fn one_step(w: &mut Words, step: Option<Step>, cursor: u32) {
    let end = w.values.len() + 5;
    match &step {
        Some(step) => put_step(w, step),
        None => w.put("kind", FINISHED),
    }
    while w.values.len() < end {
        w.put("no place", 0);
    }
    let next = if step.is_some() { cursor + 1 } else { cursor };
    w.put("next cursor", next as i32);
}

/// Calls 106 to 113 but the bounds, 122 and 130: the answer ends with a table of edges.
fn on_edges(w: &mut Words, job: Job) {
    let edges = match job {
        Job::Blues(mut edges, dim, group, rule) => {
            let result = calls::align_edges_to_blues(&mut edges, dim, group, &rule);
            let anchor = number(w, result).flatten();
            index(w, "anchor", anchor);
            edges
        }
        Job::Linked(mut edges, rule, base, stem) => {
            done(w, calls::align_linked_edge(&mut edges, &rule, base, stem));
            edges
        }
        Job::Serif(mut edges, base, serif) => {
            done(w, calls::align_serif_edge(&mut edges, base, serif));
            edges
        }
        Job::Adjust(mut edges, edge, next, top_to_bottom) => {
            done(w, calls::adjust_link(&mut edges, edge, next, top_to_bottom));
            edges
        }
        Job::CjkStem(mut edges, given) => {
            let delta = number(w, calls::hint_normal_stem_cjk(&mut edges, &given));
            w.put("delta", delta.unwrap_or(0));
            edges
        }
        Job::Stems(mut edges, given) => {
            let result = number(w, calls::align_stem_edges(&mut edges, &given));
            let (count, anchor) = result.unwrap_or((0, None));
            w.count("count", count);
            index(w, "anchor", anchor);
            edges
        }
        Job::M(mut edges, group) => {
            done(w, calls::hint_lowercase_m(&mut edges, group));
            edges
        }
        Job::Joined(mut edges, given) => {
            let fitted = number(w, joined::align_blues_and_stems(&mut edges, &given));
            w.count("count", fitted.map_or(0, |fitted| fitted.count));
            index(w, "anchor", fitted.and_then(|fitted| fitted.anchor));
            edges
        }
        Job::Remaining(mut edges, given) => {
            let result = remaining::align_remaining_edges(&mut edges, &given);
            let anchor = number(w, result).flatten();
            index(w, "anchor", anchor);
            edges
        }
        _ => unreachable!("the other calls hand back no table of edges"),
    };
    w.edges(edges.count, &edges.items);
}

/// Appends document 01's number and keeps what was handed back.
fn number<T>(w: &mut Words, result: Answer<T>) -> Option<T> {
    match result {
        Ok(value) => {
            w.put("answer", 0);
            Some(value)
        }
        Err(Refusal(number)) => {
            w.put("answer", number);
            None
        }
    }
}

/// Appends the number of a call that hands back nothing beside it.
fn done(w: &mut Words, result: Answer<()>) {
    number(w, result);
}

/// Appends the answer of calls 1 and 2.
fn value(w: &mut Words, value: i16) {
    w.put("answer", 0);
    w.put("value", value.into());
}

/// Appends an index or its absence.
fn index(w: &mut Words, name: &'static str, index: Option<usize>) {
    w.index(
        name,
        index.map(|ix| u16::try_from(ix).expect("tables are small")),
    );
}
