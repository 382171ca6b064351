//! The old range, in which equality with the given Rust is claimed: how many of some jobs lie in it.

use crate::{
    answer::answer,
    calls,
    given::metrics::fixed_mul,
    job::{Edge, Job, Points, Table},
    limits::OLD_COORDINATE,
    refusals::{self, Refusal},
};

/// How many outlines, or jobs on edges, were done and how.
#[derive(Copy, Clone, PartialEq, Debug, Default)]
pub struct Ranges {
    /// With every number in the old range: by the given Rust.
    pub old: u64,
    /// With a number beyond it.
    pub beyond: u64,
    /// Not done, being refused by 8.
    pub refused_by_8: u64,
}

impl Ranges {
    /// Counts a job: an outline, each of a catalogue that has points, or building and what runs on edges.
    pub fn count(&mut self, job: Job) {
        match job {
            Job::Weak(points) => self.count_outline(&points),
            Job::Catalogue(catalogue) if refusals::catalogue(&catalogue).is_ok() => {
                let outlines = calls::outlines(&catalogue);
                let with_points = outlines.iter().filter(|own| !own.originals.is_empty());
                with_points.for_each(|own| self.count_outline(own));
            }
            job => {
                let is_old = on_an_axis(&job);
                match (is_old, is_old.map(|_| answer(job).values[0])) {
                    (Some(is_old), Some(0)) => self.count_done(is_old),
                    (_, Some(8)) => self.refused_by_8 += 1,
                    _ => {}
                }
            }
        }
    }

    /// Counts an outline.
    fn count_outline(&mut self, points: &Points) {
        match refusals::weak(points) {
            Ok(()) => self.count_done(is_old(points)),
            Err(Refusal(8)) => self.refused_by_8 += 1,
            Err(_) => {}
        }
    }

    /// Counts what was done.
    fn count_done(&mut self, is_old: bool) {
        if is_old {
            self.old += 1;
        } else {
            self.beyond += 1;
        }
    }
}

/// Whether every coordinate of an outline is in the old range.
pub fn is_old(points: &Points) -> bool {
    let mut coordinates = points.originals.iter().chain(&points.currents);
    coordinates.all(|coordinate| OLD_COORDINATE.contains(coordinate))
}

/// Of a job that the given Rust answers on an axis, whether each `opos`, `fitted` and product is in the old range; of a fit also the coordinates of its points.
fn on_an_axis(job: &Job) -> Option<bool> {
    match job {
        Job::Build(segments, _, given) => {
            let product = |pos: i16| fixed_mul(pos.into(), given.scale);
            let mut positions = segments.items.iter().map(|segment| segment.pos);
            Some(positions.all(|pos| OLD_COORDINATE.contains(&product(pos))))
        }
        Job::MLent(edges, _) => Some(edges.iter().all(is_old_edge)),
        Job::Blues(edges, ..)
        | Job::Linked(edges, ..)
        | Job::Serif(edges, ..)
        | Job::Adjust(edges, ..)
        | Job::Bounds(edges, _)
        | Job::CjkStem(edges, _)
        | Job::Stems(edges, _)
        | Job::M(edges, _)
        | Job::Joined(edges, _)
        | Job::Remaining(edges, _) => Some(are_old(edges)),
        Job::Fit(_, edges, given) => {
            let mut coordinates = given.originals.iter().chain(&given.currents);
            let near = coordinates.all(|coordinate| OLD_COORDINATE.contains(coordinate));
            Some(near && are_old(edges))
        }
        _ => None,
    }
}

/// Whether the edges of a table are in the old range.
fn are_old(edges: &Table<Edge>) -> bool {
    edges.items.iter().all(is_old_edge)
}

/// Whether `opos` and a blue's `fitted` are in the old range.
fn is_old_edge(edge: &Edge) -> bool {
    let fitted = edge.blue_edge.map(|blue| blue.fitted);
    OLD_COORDINATE.contains(&edge.opos) && fitted.is_none_or(|at| OLD_COORDINATE.contains(&at))
}
