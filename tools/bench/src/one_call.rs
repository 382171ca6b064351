//! An axis in one call of the library, as gateways make it, and the same by a call for each step.

use crate::{
    port::{self, Beside, Rule},
    records,
};
use khsaemudol::{
    AxisPoints, BluesAndStems, Dimension, Edge, Fitted, Fitting, Moving, Order, Refusal, Segment,
    EDGE_WORDS, SEGMENT_WORDS,
};
use oracle::{
    job,
    limits::{EDGES, M_EDGES, SEGMENTS},
};

/// The word of the call.
pub const CALL: i32 = 129;

/// What it hands back beside a refusal: nothing lost, no pair, nothing passed over, and no anchor.
pub const REFUSED: Beside = [0, 0, 0, -1, -1, 0, 0, 0, -1];

/// An axis, what the call is told, and what it changes.
pub struct OneCall {
    segments: Vec<Segment>,
    given_edges: Vec<Edge>,
    given: job::Fit,
    rule: Rule,
    by_steps: bool,
    edges: Vec<Edge>,
    currents: Vec<i32>,
    touches: Vec<u8>,
}

impl OneCall {
    /// A job of so many segments, by its words too.
    pub fn new(words: &[i32], segments: usize, given: job::Fit) -> Self {
        // the edges stand behind the segments
        let edges = &words[1 + SEGMENT_WORDS * segments..];
        Self {
            segments: records::given(words, SEGMENTS),
            given_edges: records::given(edges, EDGES),
            rule: Rule::of(given.rule.clone()),
            given,
            by_steps: false,
            edges: Vec::new(),
            currents: Vec::new(),
            touches: Vec::new(),
        }
    }

    /// The same by a call for each step.
    pub fn by_steps(self) -> Self {
        Self {
            by_steps: true,
            ..self
        }
    }

    /// Sets anew what the call changes.
    pub fn restore(&mut self) {
        self.edges.clone_from(&self.given_edges);
        self.currents.clone_from(&self.given.currents);
        self.touches.clone_from(&self.given.touches);
    }

    /// Calls the library.
    pub fn run(&mut self) -> Result<Beside, Refusal> {
        let fitted = if self.by_steps {
            self.fit_by_steps()?
        } else {
            self.fit()?
        };
        Ok(told(fitted))
    }

    /// The words of the lists that are left, each behind its count.
    pub fn lists(&self) -> Vec<i32> {
        let carried = &self.edges[..self.edges.len().min(EDGES)];
        let mut words = records::words(self.edges.len(), carried);
        words.push(self.currents.len() as i32);
        words.extend(&self.currents);
        words.push(self.touches.len() as i32);
        words.extend(self.touches.iter().copied().map(i32::from));
        words
    }

    /// How points are moved by edges.
    fn moving(&self) -> Moving {
        Moving {
            snap: self.given.snap,
            done_alone: self.given.done_alone,
        }
    }

    /// Fits the axis in one call.
    fn fit(&mut self) -> Result<Fitted, Refusal> {
        let given = Fitting {
            dimension: port::dimension(self.given.dim),
            group: port::group(self.given.group),
            stem_adjust: self.given.stem_adjust,
            moving: self.moving(),
            rule: self.rule.rule(),
            lowercase_m: self.given.lowercase_m,
            least: self.given.least,
            linked: self.given.linked,
        };
        let points = AxisPoints {
            fonts: &self.given.fonts,
            originals: &self.given.originals,
            weak: &self.given.weak,
            ends: &self.given.ends,
        };
        let (edges, currents) = (&mut self.edges, &mut self.currents);
        let touches = &mut self.touches;
        khsaemudol::fit_axis(&self.segments, edges, &given, &points, currents, touches)
    }

    /// Fits it by a call for each step.
    fn fit_by_steps(&mut self) -> Result<Fitted, Refusal> {
        let (dimension, group) = (
            port::dimension(self.given.dim),
            port::group(self.given.group),
        );
        let joined = BluesAndStems {
            dimension,
            group,
            stem_adjust: self.given.stem_adjust,
            order: Order::BottomToTop,
            rule: self.rule.rule(),
        };
        let edges = &mut self.edges;
        let mut stems = khsaemudol::align_blues_and_stems(edges, &joined)?;
        let across = dimension == Dimension::Horizontal;
        if self.given.lowercase_m && across && M_EDGES.contains(&edges.len()) {
            khsaemudol::hint_lowercase_m(edges, group)?;
        }
        if stems.passed_over > 0 || stems.anchor.is_none() {
            stems.anchor = khsaemudol::align_remaining_edges(edges, dimension, group, stems)?;
        }
        let lost = khsaemudol::lost_gaps(edges, self.given.least, self.given.linked)?;
        self.move_points()?;
        Ok(Fitted {
            lost,
            passed_over: stems.passed_over,
            anchor: stems.anchor,
        })
    }

    /// Moves the points by the edges, by a call for each step.
    fn move_points(&mut self) -> Result<(), Refusal> {
        let moving = self.moving();
        let (edges, currents, touches) = (&self.edges, &mut self.currents, &mut self.touches);
        let job::Fit {
            fonts,
            originals,
            weak,
            ends,
            ..
        } = &self.given;
        khsaemudol::align_edge_points(&self.segments, edges, moving, currents, touches, ends)?;
        khsaemudol::align_strong_points(edges, fonts, originals, currents, touches, weak)?;
        khsaemudol::align_weak_points(originals, currents, touches, ends)
    }
}

/// What is handed back, in the order of the words.
fn told(fitted: Fitted) -> Beside {
    let Fitted {
        lost,
        passed_over,
        anchor,
    } = fitted;
    let count = |count: usize| count as i32;
    let mut words = REFUSED;
    words[..3].copy_from_slice(&[lost.gaps, lost.stems, lost.not_done].map(count));
    if let Some(pair) = lost.first {
        let (first, second) = (pair.first.into(), pair.second.into());
        words[3..7].copy_from_slice(&[first, second, pair.before, pair.after]);
    }
    words[7] = count(passed_over);
    words[8] = port::word(anchor);
    words
}

/// Where the counts of a job's numbers and of its standards stand.
fn counts(job: &[i32]) -> [usize; 2] {
    let edges = 2 + SEGMENT_WORDS * job[1] as usize;
    let numbers = edges + 1 + EDGE_WORDS * job[edges] as usize;
    [numbers, numbers + 1 + job[numbers] as usize]
}

/// Has an axis keep the widths of its stems, as FreeType does.
#[cfg(feature = "freetype")]
pub fn keep_widths(job: &mut Vec<i32>) {
    let [numbers, standards] = counts(job);
    // the sixth number is the width rule
    job[numbers + 6] = 0;
    let behind = standards + 1 + job[standards] as usize;
    job.splice(standards..behind, [0]);
}

/// Sets the last current of an axis of so many points out of range.
pub fn far_current(job: &mut [i32], size: usize) {
    let [_, standards] = counts(job);
    let fonts = standards + 1 + job[standards] as usize;
    // in front of each list stands its count
    job[fonts + 3 * (1 + size) - 1] = 65_536;
}
