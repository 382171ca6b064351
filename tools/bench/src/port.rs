//! The port as tools use it: jobs by `jobs`, and calls of the library as gateways make them.

use crate::{one_call::OneCall, records};
use khsaemudol::{
    BluesAndStems, Bounds, Building, Catalogue, CjkStem, Dimension, Direction, Edge, Group,
    LostGaps, Moving, Neighbour, Order, Outline, PathStep, Refusal, Segment, StemPass, Stems,
    WidthRule, MOST_EDGES, SEGMENT_WORDS,
};
use oracle::{
    job::{self, Job, Points, ScriptGroup, Walk},
    limits::{EDGES, LENT, SEGMENTS},
};
use std::hint::black_box;

/// A function of `jobs`: writes the answer to a word list, and tells how many words it has.
type Answering = unsafe extern "C" fn(*const i32, usize, *mut i32, usize) -> usize;

extern "C" {
    /// Answers by the library's functions.
    fn jobs_answer(words: *const i32, words_len: usize, out: *mut i32, out_len: usize) -> usize;
    /// The same with the calls on tables by value.
    fn jobs_answer_by_value(
        words: *const i32,
        words_len: usize,
        out: *mut i32,
        out_len: usize,
    ) -> usize;
}

/// The words of the longest answer.
pub const LONGEST: usize = 36_866;

/// The library's answer to a word list.
pub fn answer(words: &[i32]) -> Vec<i32> {
    answered(jobs_answer, words)
}

/// The same with the calls on tables by value.
pub fn answer_by_value(words: &[i32]) -> Vec<i32> {
    answered(jobs_answer_by_value, words)
}

/// The answer that a function of `jobs` gives to a word list.
fn answered(answering: Answering, words: &[i32]) -> Vec<i32> {
    let mut out = vec![0; LONGEST];
    let count = answer_into(answering, words, &mut out);
    out.truncate(count);
    out
}

/// Writes that answer, and tells how many words it has.
fn answer_into(answering: Answering, words: &[i32], out: &mut [i32]) -> usize {
    // SAFETY: each pointer and length is of one live slice, and `out` is lent to this call alone.
    unsafe { answering(words.as_ptr(), words.len(), out.as_mut_ptr(), out.len()) }
}

/// A job of the library: what it is given, what its call changes, and the call.
pub enum Prepared {
    Middle(fn(i32, i32) -> i16, i32, i32),
    Weak(Points, Vec<i32>),
    /// The catalogue, its currents, and the answers of its outlines, once it is done.
    Catalogue(job::Catalogue, Vec<i32>, Vec<Result<(), Refusal>>),
    Link(Vec<Segment>, Vec<Segment>, Direction, i32, i32),
    Build(
        Vec<Segment>,
        Vec<Segment>,
        Box<[Edge; MOST_EDGES]>,
        Building,
    ),
    Edges(Vec<Edge>, Vec<Edge>, Call),
    /// The axis, the points, and their currents and touch marks.
    EdgePoints(Vec<Segment>, Vec<Edge>, job::EdgePoints, Vec<i32>, Vec<u8>),
    /// The edges, the points, and their currents and touch marks.
    Strong(Vec<Edge>, job::Strong, Vec<i32>, Vec<u8>),
    Fit(Box<OneCall>),
    Path(Walk, Vec<u8>, Vec<f32>),
    PathStep(Walk, u32, Option<PathStep>),
    Shown(Walk, i32),
    Job(Vec<i32>, Vec<i32>),
}

/// The library's outline of a walk.
pub fn outline(walk: &Walk) -> Outline<'_> {
    Outline {
        xs: &walk.xs,
        ys: &walk.ys,
        marks: &walk.marks,
        ends: &walk.ends,
    }
}

/// The calls over edges, with what they are told beside them.
pub enum Call {
    Blues(Dimension, Group, Rule),
    Linked(Rule, u16, u16),
    Serif(u16, u16),
    Adjust(u16, Neighbour, Order),
    Bounds(u16),
    CjkStem(job::CjkStem, Rule),
    Stems(job::Stems, Rule),
    Joined(job::Joined, Rule),
    /// The same by a call each.
    Apart(job::Joined, Rule),
    Remaining(job::Remaining),
    Gaps(i32, bool),
    M(Group),
}

/// A width rule with its standards, of which Keep has none.
pub struct Rule(Option<Vec<i32>>);

impl Rule {
    /// The rule of a job.
    pub fn of(rule: job::WidthRule) -> Self {
        Self(match rule {
            job::WidthRule::Keep(_) => None,
            job::WidthRule::Snap(standards) => Some(standards),
        })
    }

    /// The library's rule.
    pub fn rule(&self) -> WidthRule<'_> {
        self.0.as_deref().map_or(WidthRule::Keep, WidthRule::Snap)
    }
}

/// The library's dimension.
pub fn dimension(dim: job::Dimension) -> Dimension {
    match dim {
        job::Dimension::Horizontal => Dimension::Horizontal,
        job::Dimension::Vertical => Dimension::Vertical,
    }
}

/// The library's direction.
fn direction(direction: job::Direction) -> Direction {
    match direction {
        job::Direction::None => Direction::None,
        job::Direction::Right => Direction::Right,
        job::Direction::Left => Direction::Left,
        job::Direction::Up => Direction::Up,
        job::Direction::Down => Direction::Down,
    }
}

/// The library's group.
pub fn group(group: ScriptGroup) -> Group {
    match group {
        ScriptGroup::Cjk => Group::Cjk,
        _ => Group::Latin,
    }
}

/// The library's order.
fn order(top_to_bottom: bool) -> Order {
    if top_to_bottom {
        Order::TopToBottom
    } else {
        Order::BottomToTop
    }
}

/// The library's neighbour.
fn neighbour(next: bool) -> Neighbour {
    if next {
        Neighbour::Next
    } else {
        Neighbour::Previous
    }
}

/// The library's catalogue.
pub fn catalogue(given: &job::Catalogue) -> Catalogue<'_> {
    Catalogue {
        originals: &given.shared.originals,
        touched: &given.shared.touches,
        ends: &given.shared.ends,
        point_counts: &given.point_counts,
        contour_counts: &given.contour_counts,
    }
}

/// What a call hands back beside its lists: its words in front, and 0 behind.
pub type Beside = [i32; 9];

/// Nothing beside the lists.
const NOTHING: Beside = [0; 9];

/// What the guard hands back beside a refusal: nothing lost, and no pair.
pub const NO_PAIR: Beside = [0, -1, -1, 0, 0, 0, 0, 0, 0];

/// One word.
fn one(word: i32) -> Beside {
    two(word, 0)
}

/// Two words.
fn two(first: i32, second: i32) -> Beside {
    let mut words = NOTHING;
    (words[0], words[1]) = (first, second);
    words
}

/// What the guard tells.
fn told(lost: LostGaps) -> Beside {
    let count = |count: usize| count as i32;
    let mut words = lost.first.map_or(NO_PAIR, |pair| {
        let (first, second) = (pair.first.into(), pair.second.into());
        [0, first, second, pair.before, pair.after, 0, 0, 0, 0]
    });
    words[0] = count(lost.gaps);
    words[5] = count(lost.stems);
    words[6] = count(lost.not_done);
    words
}

/// An index or its absence as a word.
pub fn word(index: Option<u16>) -> i32 {
    index.map_or(-1, i32::from)
}

impl Prepared {
    /// A job, by its words too.
    pub fn new(job: Job, words: &[i32]) -> Self {
        let call = match job {
            Job::MidPos(min, max) => return Self::Middle(khsaemudol::compute_mid_pos, min, max),
            Job::MidDelta(min, max) => {
                return Self::Middle(khsaemudol::compute_mid_delta, min, max)
            }
            Job::Weak(points) => return Self::Weak(points, Vec::new()),
            Job::Link(_, major, units_per_em, scale) => {
                let given = records::given(words, SEGMENTS);
                let major = direction(major);
                return Self::Link(given, Vec::new(), major, units_per_em, scale);
            }
            Job::Build(_, _, given) => {
                let building = Building {
                    dimension: dimension(given.dim),
                    major: direction(given.major),
                    group: group(given.group),
                    order: order(given.top_to_bottom),
                    scale: given.scale,
                    distance: given.distance,
                    length: given.length,
                    width: given.width,
                };
                let room = Box::new([Edge::default(); MOST_EDGES]);
                return Self::Build(records::given(words, SEGMENTS), Vec::new(), room, building);
            }
            Job::Blues(_, dim, script, rule) => {
                Call::Blues(dimension(dim), group(script), Rule::of(rule))
            }
            Job::Linked(_, rule, base, stem) => Call::Linked(Rule::of(rule), base, stem),
            Job::Serif(_, base, serif) => Call::Serif(base, serif),
            Job::Adjust(_, edge, next, top_to_bottom) => {
                Call::Adjust(edge, neighbour(next), order(top_to_bottom))
            }
            Job::Bounds(_, edge) => Call::Bounds(edge),
            Job::CjkStem(_, given) => {
                let rule = Rule::of(given.rule.clone());
                Call::CjkStem(given, rule)
            }
            Job::Stems(_, given) => {
                let rule = Rule::of(given.rule.clone());
                Call::Stems(given, rule)
            }
            Job::Joined(_, given) => {
                let rule = Rule::of(given.rule.clone());
                Call::Joined(given, rule)
            }
            Job::Remaining(_, given) => Call::Remaining(given),
            Job::Gaps(_, least, linked) => Call::Gaps(least, linked),
            Job::M(_, script) => Call::M(group(script)),
            Job::MLent(_, script) => {
                let given = records::given(words, LENT);
                return Self::Edges(given, Vec::new(), Call::M(group(script)));
            }
            Job::Path(walk) => {
                let most = outline(&walk).most_steps();
                return Self::Path(walk, vec![0; most], vec![0.0; 4 * most]);
            }
            Job::PathStep(walk, cursor) => return Self::PathStep(walk, cursor, None),
            Job::Shown(walk, magnify) => return Self::Shown(walk, magnify),
            Job::EdgePoints(segments, _, given) => {
                // the edges stand behind the segments
                let edges = &words[1 + SEGMENT_WORDS * segments.items.len()..];
                return Self::EdgePoints(
                    records::given(words, SEGMENTS),
                    records::given(edges, EDGES),
                    given,
                    Vec::new(),
                    Vec::new(),
                );
            }
            Job::Strong(_, given) => {
                let edges = records::given(words, EDGES);
                return Self::Strong(edges, given, Vec::new(), Vec::new());
            }
            Job::Fit(segments, _, given) => {
                let fit = OneCall::new(words, segments.items.len(), given);
                return Self::Fit(Box::new(fit));
            }
            Job::Catalogue(given) => return Self::Catalogue(given, Vec::new(), Vec::new()),
            Job::Remember(..)
            | Job::WithReferences(..)
            | Job::Drag(..)
            | Job::Mend(..)
            | Job::Pack(..)
            | Job::TurnOver(..)
            | Job::WriteFrame(..)
            | Job::ReadFrame(..) => return Self::by_job(words),
        };
        Self::Edges(records::given(words, EDGES), Vec::new(), call)
    }

    /// A job of blues and stems, which the library is to do by a call each.
    pub fn apart(given: job::Joined, words: &[i32]) -> Self {
        let rule = Rule::of(given.rule.clone());
        let call = Call::Apart(given, rule);
        Self::Edges(records::given(words, EDGES), Vec::new(), call)
    }

    /// A job of an axis, which the library is to fit by a call for each step.
    pub fn in_a_row(segments: usize, given: job::Fit, words: &[i32]) -> Self {
        let fit = OneCall::new(words, segments, given);
        Self::Fit(Box::new(fit.by_steps()))
    }

    /// A job that `jobs` answers, from words to words, for a call that the library does not have by itself.
    pub fn by_job(words: &[i32]) -> Self {
        Self::Job(words.to_vec(), vec![0; LONGEST])
    }

    /// Sets anew what the call changes.
    pub fn restore(&mut self) {
        match self {
            Self::Middle(..)
            | Self::Path(..)
            | Self::PathStep(..)
            | Self::Shown(..)
            | Self::Job(..) => {}
            Self::Weak(points, currents) => currents.clone_from(&points.currents),
            Self::Catalogue(given, currents, _) => currents.clone_from(&given.shared.currents),
            Self::Link(given, segments, ..) | Self::Build(given, segments, ..) => {
                segments.clone_from(given);
            }
            Self::Edges(given, edges, _) => edges.clone_from(given),
            Self::EdgePoints(_, _, given, currents, touches) => {
                currents.clone_from(&given.currents);
                touches.clone_from(&given.touches);
            }
            Self::Strong(_, given, currents, touches) => {
                currents.clone_from(&given.currents);
                touches.clone_from(&given.touches);
            }
            Self::Fit(fit) => fit.restore(),
        }
    }

    /// Calls the library.
    pub fn run(&mut self) -> Result<Beside, Refusal> {
        match self {
            Self::Middle(middle, min, max) => {
                let value = middle(black_box(*min), black_box(*max));
                Ok(one(value.into()))
            }
            Self::Weak(points, currents) => {
                let Points {
                    originals,
                    touches,
                    ends,
                    ..
                } = points;
                khsaemudol::align_weak_points(originals, currents, touches, ends).map(|()| NOTHING)
            }
            Self::Catalogue(given, currents, answers) => {
                *answers = catalogue(given).align(currents)?;
                Ok(NOTHING)
            }
            Self::Link(_, segments, major, units_per_em, scale) => {
                khsaemudol::link_segments_cjk(segments, *major, *units_per_em, *scale)
                    .map(|()| NOTHING)
            }
            Self::Build(_, segments, room, building) => {
                let edges = khsaemudol::compute_edges(segments, room, building)?;
                Ok(one(edges.len() as i32))
            }
            Self::Edges(_, edges, call) => call.run(edges),
            Self::EdgePoints(segments, edges, given, currents, touches) => {
                let moving = Moving {
                    snap: given.snap,
                    done_alone: given.done_alone,
                };
                let ends = &given.ends;
                khsaemudol::align_edge_points(segments, edges, moving, currents, touches, ends)
                    .map(|()| NOTHING)
            }
            Self::Strong(edges, given, currents, touches) => {
                let job::Strong {
                    fonts,
                    originals,
                    weak,
                    ..
                } = given;
                khsaemudol::align_strong_points(edges, fonts, originals, currents, touches, weak)
                    .map(|()| NOTHING)
            }
            Self::Fit(fit) => fit.run(),
            Self::Path(walk, kinds, places) => {
                let path = khsaemudol::path(&outline(walk), kinds, places)?;
                Ok(one(path.len() as i32))
            }
            Self::PathStep(walk, cursor, step) => {
                let found = khsaemudol::path_step(&outline(walk), *cursor)?;
                *step = found.map(|(step, _)| step);
                Ok(one(found.map_or(*cursor, |(_, next)| next) as i32))
            }
            Self::Shown(walk, magnify) => {
                let shown = khsaemudol::count_shown(&outline(walk), *magnify)?;
                Ok(two(shown.black as i32, shown.euler))
            }
            Self::Job(words, out) => {
                black_box(answer_into(jobs_answer, words, out));
                Ok(NOTHING)
            }
        }
    }
}

impl Call {
    /// Calls the library on edges.
    fn run(&self, edges: &mut [Edge]) -> Result<Beside, Refusal> {
        Ok(match self {
            Self::Blues(dim, group, rule) => {
                let anchor = khsaemudol::align_edges_to_blues(edges, *dim, *group, rule.rule())?;
                one(word(anchor))
            }
            Self::Linked(rule, base, stem) => {
                khsaemudol::align_linked_edge(edges, rule.rule(), *base, *stem)?;
                NOTHING
            }
            Self::Serif(base, serif) => {
                khsaemudol::align_serif_edge(edges, *base, *serif)?;
                NOTHING
            }
            Self::Adjust(edge, neighbour, order) => {
                khsaemudol::adjust_link(edges, *edge, *neighbour, *order)?;
                NOTHING
            }
            Self::Bounds(edge) => {
                let Bounds { lower, upper } = khsaemudol::latin_remaining_bounds(edges, *edge)?;
                two(word(lower), word(upper))
            }
            Self::CjkStem(given, rule) => {
                let given = CjkStem {
                    dimension: dimension(given.dim),
                    stem_adjust: given.stem_adjust,
                    rule: rule.rule(),
                    edge: given.edge,
                    edge2: given.edge2,
                    delta: given.delta,
                };
                one(khsaemudol::hint_normal_stem_cjk(edges, &given)?)
            }
            Self::Stems(given, rule) => {
                let given = StemPass {
                    dimension: dimension(given.dim),
                    group: group(given.group),
                    stem_adjust: given.stem_adjust,
                    order: order(given.top_to_bottom),
                    anchor: given.anchor,
                    rule: rule.rule(),
                };
                let Stems {
                    passed_over,
                    anchor,
                } = khsaemudol::align_stem_edges(edges, &given)?;
                two(passed_over as i32, word(anchor))
            }
            Self::Joined(given, rule) => {
                let given = BluesAndStems {
                    dimension: dimension(given.dim),
                    group: group(given.group),
                    stem_adjust: given.stem_adjust,
                    order: order(given.top_to_bottom),
                    rule: rule.rule(),
                };
                let Stems {
                    passed_over,
                    anchor,
                } = khsaemudol::align_blues_and_stems(edges, &given)?;
                two(passed_over as i32, word(anchor))
            }
            Self::Apart(given, rule) => {
                let (dim, script) = (dimension(given.dim), group(given.group));
                let anchor = khsaemudol::align_edges_to_blues(edges, dim, script, rule.rule())?;
                let given = StemPass {
                    dimension: dim,
                    group: script,
                    stem_adjust: given.stem_adjust,
                    order: order(given.top_to_bottom),
                    anchor,
                    rule: rule.rule(),
                };
                let Stems {
                    passed_over,
                    anchor,
                } = khsaemudol::align_stem_edges(edges, &given)?;
                two(passed_over as i32, word(anchor))
            }
            Self::Remaining(given) => {
                let (dim, script) = (dimension(given.dim), group(given.group));
                let stems = Stems {
                    passed_over: given.count.into(),
                    anchor: given.anchor,
                };
                one(word(khsaemudol::align_remaining_edges(
                    edges, dim, script, stems,
                )?))
            }
            Self::Gaps(least, linked) => told(khsaemudol::lost_gaps(edges, *least, *linked)?),
            Self::M(group) => {
                khsaemudol::hint_lowercase_m(edges, *group)?;
                NOTHING
            }
        })
    }
}
