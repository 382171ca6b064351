//! Fitting an axis: worked values, the order of refusals, that the call is its steps asked one by one, on made-up and small jobs, where each refusal comes from, and wrong fittings, each
//! told from the right one.

use super::{done, job_of, keep, linked, segment};
use crate::{
    answer::answer,
    decode::decode,
    fit::{fit_axis, Fitted},
    gaps::Lost,
    generate::{fit::small, line, Random, PROFILES},
    job::{Dimension, Edge, Fit, Job, Mark, ScaledWidth, ScriptGroup, Segment, Table, WidthRule},
    refusals::{self, Answer, Refusal},
    words::encode,
};
use std::{collections::BTreeMap, convert::Infallible};

/// An edge by its place in font units, which is where it was and is.
fn at(place: i16, edge: impl Fn(i32) -> Edge) -> Edge {
    Edge {
        fpos: place,
        ..edge(place.into())
    }
}

/// A segment from a point to another, on an edge.
fn walk(first_ix: u16, last_ix: u16, edge: u16) -> Segment {
    Segment {
        first_ix,
        last_ix,
        edge_ix: Some(edge),
        ..segment(0)
    }
}

/// Points of one contour at their font positions, untouched and strong, on the vertical axis of Latin.
fn points(fonts: &[i16]) -> Fit {
    let places: Vec<i32> = fonts.iter().map(|font| (*font).into()).collect();
    Fit {
        dim: Dimension::Vertical,
        group: ScriptGroup::Default,
        stem_adjust: false,
        snap: true,
        done_alone: false,
        rule: keep(),
        lowercase_m: false,
        least: 32,
        linked: false,
        fonts: fonts.to_vec(),
        originals: places.clone(),
        currents: places,
        touches: vec![0; fonts.len()],
        weak: vec![0; fonts.len()],
        ends: vec![fonts.len() as u16 - 1],
    }
}

/// What the call hands back, and the edges' positions, the currents and the touch marks that it leaves.
type Left = (Fitted, Vec<i32>, Vec<i32>, Vec<u8>);

/// What the call leaves of an axis.
fn fitted(segments: &[Segment], edges: &[Edge], given: &Fit) -> Answer<Left> {
    let (mut edges, mut given) = (Table::of(edges.to_vec()), given.clone());
    let fitted = fit_axis(&Table::of(segments.to_vec()), &mut edges, &mut given)?;
    let positions = super::positions(&edges);
    Ok((fitted, positions, given.currents, given.touches))
}

/// The font positions of a bar's points, two on either side and one between.
const BAR: [i16; 5] = [61, 61, 30, 0, 0];

/// The sides of a bar.
fn sides() -> [Segment; 2] {
    [walk(0, 1, 1), walk(3, 4, 0)]
}

/// The edges of a bar, linked to each other.
fn bar() -> [Edge; 2] {
    [at(0, |at| linked(at, 1)), at(61, |at| linked(at, 0))]
}

/// What is handed back where nothing is lost.
fn kept(passed_over: usize, anchor: usize) -> Fitted {
    Fitted {
        lost: Lost::default(),
        passed_over,
        anchor: Some(anchor),
    }
}

#[test]
fn a_bar_takes_its_points_along() {
    let result = fitted(&sides(), &bar(), &points(&BAR));
    let currents = vec![63, 63, 32, 2, 2];
    assert_eq!(
        result,
        Ok((kept(0, 0), vec![2, 63], currents.clone(), vec![1; 5]))
    );
    // a weak point in between comes to the same place, and is not touched
    let mut weak = points(&BAR);
    weak.weak[2] = 255;
    let result = fitted(&sides(), &bar(), &weak);
    assert_eq!(
        result,
        Ok((kept(0, 0), vec![2, 63], currents, vec![1, 1, 0, 1, 1]))
    );
}

#[test]
fn an_edge_that_stems_pass_over_is_placed_by_the_anchor() {
    let mut edges = bar().to_vec();
    edges.push(at(150, super::edge));
    let mut segments = sides().to_vec();
    segments.push(walk(2, 2, 2));
    let mut given = points(&BAR);
    (given.fonts[2], given.originals[2], given.currents[2]) = (150, 150, 150);
    let result = fitted(&segments, &edges, &given);
    assert_eq!(
        result,
        Ok((
            kept(1, 0),
            vec![2, 63, 162],
            vec![63, 63, 162, 2, 2],
            vec![1; 5]
        ))
    );
}

#[test]
fn what_is_lost_is_told_and_fitted_on() {
    let edges = [
        at(0, |at| done(super::edge(at))),
        at(40, |at| Edge {
            pos: 20,
            ..done(super::edge(at))
        }),
    ];
    let left = fitted(&sides(), &edges, &points(&BAR));
    let (told, _, currents, _) = left.expect("the axis is accepted");
    assert_eq!((told.lost.gaps, told.lost.stems, told.anchor), (1, 0, None));
    assert_eq!(currents, [20, 20, 15, 0, 0]);
}

/// Six edges of an m, the third stem a number of units off.
fn letter_m(uneven: i16) -> Vec<Edge> {
    let places = [0, 20, 100, 120, 200 + uneven, 220 + uneven];
    let pair = |ix: usize| (ix ^ 1) as u16;
    let edges = places.iter().enumerate();
    edges
        .map(|(ix, place)| at(*place, |at| linked(at, pair(ix))))
        .collect()
}

#[test]
fn the_m_is_horizontal_and_is_said_to_be_one() {
    let moves = |uneven: i16, dim: Dimension, lowercase_m: bool| {
        let mut given = points(&[0, 20]);
        (given.dim, given.lowercase_m) = (dim, lowercase_m);
        let mut edges = Table::of(letter_m(uneven));
        let segments = Table::of(vec![walk(0, 0, 0)]);
        fit_axis(&segments, &mut edges, &mut given).expect("the m is accepted");
        let [first, second, third] = [0, 2, 4].map(|ix| edges.items[ix].pos);
        let moved = edges.items[4].mark == Mark::LowercaseM;
        assert!(!moved || second - first == third - second);
        moved
    };
    use Dimension::{Horizontal, Vertical};
    assert!(moves(7, Horizontal, true));
    assert!(!moves(8, Horizontal, true));
    assert!(!moves(7, Vertical, true));
    assert!(!moves(7, Horizontal, false));
}

/// The farthest position.
const FAR: i32 = 16_777_216;

/// A done edge, by its place in font units, at a position.
fn put(place: i16, pos: i32) -> Edge {
    Edge {
        pos,
        ..at(place, |at| done(super::edge(at)))
    }
}

/// The number by which an axis is refused, or 0; a refusal has changed nothing.
fn number(segments: &[Segment], edges: &[Edge], given: &Fit) -> i32 {
    let mut axis = (Table::of(edges.to_vec()), given.clone());
    let result = fit_axis(&Table::of(segments.to_vec()), &mut axis.0, &mut axis.1);
    let came = (Table::of(edges.to_vec()), given.clone());
    assert!(result.is_ok() || axis == came, "a refusal writes");
    result.map_or_else(|refusal| refusal.0, |_| 0)
}

#[test]
fn refused_on_the_way() {
    let one = |edges: &[Edge], given: &Fit| number(&[walk(0, 0, 0)], edges, given);
    let aside = |edges: &[Edge], given: &Fit| number(&[segment(0)], edges, given);
    let still = points(&[0]);
    // edge points: an edge beyond where points may be
    assert_eq!(one(&[put(0, 65_535)], &still), 0);
    assert_eq!(one(&[put(0, 65_536)], &still), 4);
    // strong points: a current that edge points shifted beyond, and a pair too steep
    let mut shifted = points(&[0]);
    (shifted.snap, shifted.currents[0]) = (false, 1);
    assert_eq!(one(&[put(0, 65_534)], &shifted), 0);
    assert_eq!(one(&[put(0, 65_535)], &shifted), 4);
    let between = points(&[1]);
    assert_eq!(aside(&[put(0, 0), put(2, 65_535)], &between), 0);
    assert_eq!(aside(&[put(0, 0), put(2, 65_536)], &between), 8);
    // weak points: a current that strong points left beyond, and a stretch too steep
    assert_eq!(aside(&[put(0, 65_534)], &points(&[1])), 0);
    assert_eq!(aside(&[put(0, 65_535)], &points(&[1])), 4);
    let mut stretch = points(&[0, 1, 2]);
    (stretch.weak, stretch.touches) = (vec![1; 3], vec![1, 0, 1]);
    stretch.currents = vec![-65_535, 0, 0];
    assert_eq!(aside(&[], &stretch), 0);
    stretch.currents[2] = 1;
    assert_eq!(aside(&[], &stretch), 8);
    // remaining edges: a position beyond, by a serif; the guard: one that stems left
    let serif = Edge {
        serif_ix: Some(0),
        ..at(1, super::edge)
    };
    assert_eq!(aside(&[put(0, FAR - 1), serif], &points(&[0])), 4);
    assert_eq!(aside(&[put(0, FAR), serif], &points(&[0])), 8);
    let stems = [
        at(0, |at| linked(at, 1)),
        at(100, |at| linked(at, 0)),
        put(200, FAR),
        at(300, |at| linked(at, 2)),
    ];
    assert_eq!(aside(&stems, &still), 4);
}

#[test]
fn refuses_in_order() {
    let faulty = Segment {
        score: -1,
        link_ix: Some(9),
        ..walk(0, 1, 0)
    };
    let zone = ScaledWidth { fitted: 65_536 };
    let mut segments = Table {
        count: 513,
        items: vec![faulty; 512],
    };
    let mut edges = Table::of(vec![Edge {
        blue_edge: Some(zone),
        first_ix: 512,
        ..put(0, FAR + 1)
    }]);
    let mut given = points(&[0, 0]);
    given.dim = Dimension::Horizontal;
    given.rule = WidthRule::Snap(vec![0]);
    (given.least, given.originals[0], given.currents[1]) = (-1, 65_536, -65_536);
    (given.ends, given.weak) = (vec![2], vec![0]);
    let mut answers = Vec::new();
    for mend in 0..16 {
        match mend {
            1 => segments = Table::of(vec![faulty]),
            2 => given.weak.push(0),
            3 => given.rule = WidthRule::Snap(vec![1]),
            4 => given.least = 65_536,
            5 => given.least = 65_535,
            6 => given.dim = Dimension::Vertical,
            7 => given.ends = vec![0, 1],
            8 => segments.items[0].link_ix = None,
            9 => edges.items[0].first_ix = 0,
            10 => given.ends = vec![1],
            11 => segments.items[0].score = 0,
            12 => edges.items[0].blue_edge = None,
            13 => edges.items[0].pos = 5,
            14 => given.originals[0] = 65_535,
            15 => given.currents[1] = -65_535,
            _ => {}
        }
        let before = (edges.clone(), given.clone());
        let result = fit_axis(&segments, &mut edges, &mut given);
        assert!(
            result.is_ok() || (edges.clone(), given.clone()) == before,
            "a refusal writes"
        );
        answers.push(result.map_or_else(|refusal| refusal.0, |_| 0));
    }
    assert_eq!(answers, [1, 1, 2, 2, 2, 2, 3, 3, 3, 3, 4, 4, 4, 4, 4, 0]);
    for list in 0..5 {
        let mut given = points(&[0]);
        match list {
            0 => given.fonts.push(0),
            1 => given.originals.push(0),
            2 => given.currents.push(0),
            3 => given.touches.push(0),
            _ => given.weak.push(0),
        }
        assert_eq!(number(&[], &[], &given), 1);
    }
}

/// The lists of a job of the call, each with its count: segments, edges, numbers, standards, font positions, originals, currents, touch marks, weak marks and contour ends.
fn lists(job: &[i32]) -> [&[i32]; 10] {
    let mut rest = &job[1..];
    [15, 12, 1, 1, 1, 1, 1, 1, 1, 1].map(|size| {
        let (list, behind) = rest.split_at(1 + size * rest[0] as usize);
        rest = behind;
        list
    })
}

/// A step that refused: its call, and the number.
type Refused = (i32, i32);

/// What a step answers to a job of these words, behind its number.
fn asked(call: i32, words: &[&[i32]]) -> Result<Vec<i32>, Refused> {
    let words = [&[call], &words.concat()[..]].concat();
    let job = decode(&words).expect("what a step is asked is a job");
    let told = answer(job).values;
    match told[0] {
        0 => Ok(told[1..].to_vec()),
        number => Err((call, number)),
    }
}

/// A way in which fitting may be wrong.
#[derive(Copy, Clone, PartialEq, Debug)]
enum Slip {
    None,
    /// The m is never asked for.
    NoM,
    /// It is on the vertical axis too.
    MOnBothAxes,
    /// The guard is asked before remaining edges.
    GuardFirst,
    /// Remaining edges are not asked where there is an anchor.
    NoneRemain,
    /// They are told that nothing was passed over.
    NothingPassed,
    /// They are told of no anchor.
    NoAnchor,
    /// The anchor handed back is the stems'.
    AnchorOfStems,
    /// Points stay where a gap or a stem is lost.
    StopsAtLost,
    /// Strong points come before those of segments.
    StrongFirst,
    /// Weak points come before strong ones.
    WeakBeforeStrong,
    /// Weak points of the first contour alone.
    FirstContour,
    /// Edges stay changed beside 8.
    EdgesChanged,
    /// Currents and marks stay changed beside a refusal.
    PointsChanged,
}

/// Every wrong one.
const SLIPS: [Slip; 13] = [
    Slip::NoM,
    Slip::MOnBothAxes,
    Slip::GuardFirst,
    Slip::NoneRemain,
    Slip::NothingPassed,
    Slip::NoAnchor,
    Slip::AnchorOfStems,
    Slip::StopsAtLost,
    Slip::StrongFirst,
    Slip::WeakBeforeStrong,
    Slip::FirstContour,
    Slip::EdgesChanged,
    Slip::PointsChanged,
];

/// What the call is lent: edges, currents and touch marks, each with its count.
#[derive(Clone)]
struct Lent {
    edges: Vec<i32>,
    currents: Vec<i32>,
    touches: Vec<i32>,
}

impl Lent {
    /// Takes currents and touch marks as a step tells them.
    fn take(&mut self, told: &[i32]) {
        let (currents, touches) = told.split_at(self.currents.len());
        (self.currents, self.touches) = (currents.to_vec(), touches.to_vec());
    }
}

/// The steps one by one, each asked by a job of its own; hands back the nine words.
fn steps(job: &[i32], lent: &mut Lent, slip: Slip) -> Result<[i32; 9], Refused> {
    let [segments, _, numbers, standards, fonts, originals, _, _, weak, ends] = lists(job);
    let [dim, group, adjust, snap, alone, rule, m, least, linked] = numbers[1..] else {
        unreachable!("there are nine numbers");
    };
    let told = asked(
        122,
        &[&lent.edges, &[dim, group, adjust, 0, rule], standards],
    )?;
    let (passed_over, stems_anchor) = (told[0], told[1]);
    lent.edges = told[2..].to_vec();
    let axis_of_m = dim == 0 || slip == Slip::MOnBothAxes;
    if m == 1 && axis_of_m && [6, 12].contains(&lent.edges[0]) && slip != Slip::NoM {
        lent.edges = asked(113, &[&lent.edges, &[group]])?;
    }
    let mut lost = match slip {
        Slip::GuardFirst => asked(127, &[&lent.edges, &[least, linked]])?,
        _ => Vec::new(),
    };
    let mut anchor = stems_anchor;
    let asks_remaining = passed_over > 0 && slip != Slip::NoneRemain;
    if asks_remaining || anchor == -1 {
        let count = passed_over * i32::from(slip != Slip::NothingPassed);
        let base = if slip == Slip::NoAnchor { -1 } else { anchor };
        let told = asked(130, &[&lent.edges, &[dim, group, count, base]])?;
        (anchor, lent.edges) = (told[0], told[1..].to_vec());
    }
    if lost.is_empty() {
        lost = asked(127, &[&lent.edges, &[least, linked]])?;
    }
    let strong = |lent: &mut Lent| {
        let points = [fonts, originals, &lent.currents, &lent.touches, weak].concat();
        asked(131, &[&lent.edges, &points]).map(|told| lent.take(&told))
    };
    let all = |lent: &mut Lent| {
        let ends = match slip {
            Slip::FirstContour if ends[0] > 1 => &[1, ends[1]],
            _ => ends,
        };
        let told = asked(3, &[originals, &lent.currents, &lent.touches, ends]);
        told.map(|currents| lent.currents = currents)
    };
    if slip == Slip::StrongFirst {
        strong(lent)?;
    }
    if slip != Slip::StopsAtLost || lost[0] + lost[5] == 0 {
        let (snaps, points) = (
            [snap, alone],
            [&lent.currents[..], &lent.touches, ends].concat(),
        );
        let told = asked(128, &[segments, &lent.edges, &snaps, &points])?;
        lent.take(&told);
        if slip == Slip::WeakBeforeStrong {
            all(lent)?;
        }
        strong(lent)?;
        all(lent)?;
    }
    let anchor = match slip {
        Slip::AnchorOfStems => stems_anchor,
        _ => anchor,
    };
    let [gaps, first, second, before, after, stems, not_done] = lost[..] else {
        unreachable!("the guard tells seven words");
    };
    Ok([
        gaps,
        stems,
        not_done,
        first,
        second,
        before,
        after,
        passed_over,
        anchor,
    ])
}

/// What the call has to answer to a job that is refused by nothing in front, by its steps, and which of them refused.
fn by_steps(job: &[i32], slip: Slip) -> (Vec<i32>, Option<Refused>) {
    let [_, edges, _, _, _, _, currents, touches, ..] = lists(job);
    let came = Lent {
        edges: edges.to_vec(),
        currents: currents.to_vec(),
        touches: touches.to_vec(),
    };
    let mut lent = came.clone();
    let result = steps(job, &mut lent, slip);
    let refused = result.err();
    if let Some((_, number)) = refused {
        let left = lent;
        lent = came;
        if slip == Slip::EdgesChanged && number == 8 {
            lent.edges = left.edges;
        } else if slip == Slip::PointsChanged {
            (lent.currents, lent.touches) = (left.currents, left.touches);
        }
    }
    let number = refused.map_or(0, |refused| refused.1);
    let told = result.unwrap_or([0, 0, 0, -1, -1, 0, 0, 0, -1]);
    let words = [
        &[number],
        &told[..],
        &lent.edges,
        &lent.currents,
        &lent.touches,
    ]
    .concat();
    (words, refused)
}

/// The number by which a job of the call is refused in front, if it is.
fn refused_in_front(job: &Job) -> Option<i32> {
    let Job::Fit(segments, edges, given) = job else {
        unreachable!("the job is of the call that was asked for");
    };
    let Refusal(number) = refusals::fit(segments, edges, given).err()?;
    Some(number)
}

#[test]
fn the_call_is_its_steps_one_by_one() {
    let mut random = Random::new(129);
    let (mut in_front, mut on_the_way, mut accepted) = (BTreeMap::new(), BTreeMap::new(), 0);
    for (_, profile) in PROFILES {
        for _ in 0..25_000 {
            let Some(job @ Job::Fit(..)) = job_of(&line(129, profile, &mut random)) else {
                continue;
            };
            if let Some(number) = refused_in_front(&job) {
                *in_front.entry(number).or_insert(0) += 1;
                continue;
            }
            let (words, refused) = by_steps(&encode(&job).values, Slip::None);
            assert_eq!(answer(job).values, words);
            match refused {
                Some(refused) => *on_the_way.entry(refused).or_insert(0) += 1,
                None => accepted += 1,
            }
        }
    }
    assert!(accepted > 40_000, "{accepted} jobs are accepted");
    let numbers: Vec<i32> = in_front.keys().copied().collect();
    assert_eq!(numbers, [1, 2, 3, 4]);
    let places: Vec<Refused> = on_the_way.keys().copied().collect();
    let all = [
        (3, 4),
        (3, 8),
        (113, 4),
        (127, 4),
        (128, 4),
        (130, 4),
        (130, 8),
        (131, 4),
        (131, 8),
    ];
    assert_eq!(places, all);
    let met = |count: &i32| *count > 150;
    assert!(in_front.values().all(met), "{in_front:?}");
    assert!(on_the_way.values().all(met), "{on_the_way:?}");
}

#[test]
fn every_small_job() {
    let (mut jobs, mut accepted) = (0, 0);
    let handed: Result<(), Infallible> = small(&mut |job| {
        jobs += 1;
        if refused_in_front(job).is_none() {
            accepted += 1;
            let (words, _) = by_steps(&encode(job).values, Slip::None);
            assert_eq!(answer(job.clone()).values, words);
        }
        Ok(())
    });
    assert_eq!((handed, jobs, accepted), (Ok(()), 287_552, 266_816));
}

#[test]
fn wrong_fittings_are_told() {
    let mut random = Random::new(7);
    let mut told = [0; SLIPS.len()];
    for (_, profile) in PROFILES {
        for _ in 0..4_000 {
            let Some(job @ Job::Fit(..)) = job_of(&line(129, profile, &mut random)) else {
                continue;
            };
            if refused_in_front(&job).is_some() {
                continue;
            }
            let words = encode(&job).values;
            let right = answer(job).values;
            for (slip, told) in SLIPS.into_iter().zip(&mut told) {
                *told += usize::from(by_steps(&words, slip).0 != right);
            }
        }
    }
    for (slip, told) in SLIPS.into_iter().zip(told) {
        assert!(told > 20, "{slip:?} is told by {told} jobs");
    }
}
