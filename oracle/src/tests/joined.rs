//! Request #108: blues and stems in one call, the branch that never runs in it, and slips that made-up jobs show.

use super::{done, edge, job_of, keep, linked, positions};
use crate::{
    answer::answer,
    calls,
    generate::{line, Random, PROFILES},
    job::{
        Dimension, Edge, Job, Joined, Mark, ScaledWidth, ScriptGroup, Stems, Table, TopoFlags,
        WidthRule,
    },
    joined::{align_blues_and_stems, Fitted},
    refusals::{Answer, Refusal},
    words::encode,
};
use Dimension::{Horizontal, Vertical};
use ScriptGroup::{Cjk, Default as Latin};

/// An edge that has a zone there.
fn zoned(fitted: i32, edge: Edge) -> Edge {
    Edge {
        blue_edge: Some(ScaledWidth { fitted }),
        ..edge
    }
}

/// What the call is told, with widths kept.
fn on(dim: Dimension, group: ScriptGroup) -> Joined {
    Joined {
        dim,
        group,
        stem_adjust: false,
        top_to_bottom: false,
        rule: keep(),
    }
}

/// What the stem pass is told behind blues.
fn stems_of(given: &Joined, anchor: Option<usize>) -> Stems {
    Stems {
        dim: given.dim,
        group: given.group,
        stem_adjust: given.stem_adjust,
        top_to_bottom: given.top_to_bottom,
        anchor: anchor.map(|ix| ix as u16),
        rule: given.rule.clone(),
    }
}

/// The two calls in a row.
fn in_a_row(edges: &mut Table<Edge>, given: &Joined) -> Answer<(usize, Option<usize>)> {
    let anchor = calls::align_edges_to_blues(edges, given.dim, given.group, &given.rule)?;
    calls::align_stem_edges(edges, &stems_of(given, anchor))
}

/// What is handed back, without the fallbacks, of which there are none.
fn handed(fitted: Answer<Fitted>) -> Answer<(usize, Option<usize>)> {
    fitted.map(|fitted| {
        assert_eq!(fitted.fallbacks, 0);
        (fitted.count, fitted.anchor)
    })
}

#[test]
fn stems_follow_the_blues_anchor() {
    // a foot on its zone, a bar beside it, and an edge without link
    let foot = [zoned(0, linked(-9, 1)), linked(52, 0)];
    let bar = [linked(200, 3), linked(261, 2)];
    let mut edges = Table::of(vec![foot[0], foot[1], bar[0], bar[1], edge(400)]);
    let fitted = align_blues_and_stems(&mut edges, &on(Vertical, Latin));
    assert_eq!(handed(fitted), Ok((1, Some(0))));
    // by the shift of the foot, 9, the bar's centre is 239, and comes to 224, which is nearer than 288
    assert_eq!(positions(&edges), [0, 61, 194, 254, 400]);
    use Mark::{BlueAnchor, Linked, Nothing, Stem};
    let marks: Vec<Mark> = edges.items.iter().map(|edge| edge.mark).collect();
    assert_eq!(marks, [BlueAnchor, Linked, Stem, Stem, Nothing]);
    let is_done = |edge: &Edge| edge.flags.contains(TopoFlags::DONE);
    let flags: Vec<bool> = edges.items.iter().map(is_done).collect();
    assert_eq!(flags, [true, true, true, true, false]);
}

#[test]
fn the_anchor_is_that_after_the_stems() {
    // CJK stems become the anchor one after the other
    let edges = [zoned(0, edge(3)), linked(200, 2), linked(264, 1)];
    let mut table = Table::of(edges.to_vec());
    let fitted = align_blues_and_stems(&mut table, &on(Vertical, Cjk));
    assert_eq!(handed(fitted), Ok((0, Some(1))));
    // without a zone the first stem is the anchor
    let mut table = Table::of(vec![edge(0), linked(100, 2), linked(160, 1)]);
    let fitted = align_blues_and_stems(&mut table, &on(Horizontal, Latin));
    assert_eq!(handed(fitted), Ok((1, Some(1))));
}

/// The answer to a table with one change, of the call told otherwise.
fn changed(change: impl Fn(&mut Table<Edge>, &mut Joined)) -> i32 {
    let mut edges = Table::of(vec![linked(0, 1), linked(60, 0), edge(100)]);
    let mut given = on(Horizontal, Latin);
    change(&mut edges, &mut given);
    let before = edges.clone();
    match align_blues_and_stems(&mut edges, &given) {
        Ok(_) => 0,
        Err(Refusal(number)) => {
            assert_eq!(edges, before, "a refusal writes nothing");
            number
        }
    }
}

/// A way to be refused.
type Fault = fn(&mut Table<Edge>, &mut Joined);

/// Every fault of the call, each with its answer, in the order of the answers.
const FAULTS: [(i32, Fault); 8] = [
    (1, |edges, _| edges.count = 129),
    (10, |_, given| given.top_to_bottom = true),
    (2, |_, given| given.rule = WidthRule::Snap(vec![5, 5])),
    (2, |edges, _| edges.items[2] = zoned(64, edges.items[2])),
    (3, |edges, _| edges.items[0].link_ix = Some(3)),
    (3, |edges, _| edges.items[0].serif_ix = Some(65_535)),
    (4, |edges, _| edges.items[1].opos = 65_536),
    (4, |edges, _| edges.items[1].pos = -16_777_217),
];

#[test]
fn every_set_of_faults_answers_the_first() {
    for set in 0..1 << FAULTS.len() {
        let faults = || (0..FAULTS.len()).filter(|ix| set >> ix & 1 == 1);
        let first = faults().next().map_or(0, |ix| FAULTS[ix].0);
        let answer = changed(|edges, given| faults().for_each(|ix| FAULTS[ix].1(edges, given)));
        assert_eq!(answer, first, "{set:b}");
    }
}

#[test]
fn a_blue_is_refused_where_blues_are_skipped() {
    // also of an edge that blues and stems would pass over, and out of its range
    assert_eq!(changed(|edges, _| edges.items[2] = zoned(0, edge(100))), 2);
    assert_eq!(
        changed(|edges, _| edges.items[2] = done(zoned(0, edge(9)))),
        2
    );
    assert_eq!(
        changed(|edges, _| edges.items[2] = zoned(70_000, edge(9))),
        2
    );
    // on the other axes it is taken
    for (dim, group) in [(Vertical, Latin), (Horizontal, Cjk), (Vertical, Cjk)] {
        let with = |fitted| {
            changed(|edges, given| {
                edges.items[2] = zoned(fitted, edge(100));
                *given = on(dim, group);
            })
        };
        assert_eq!((with(64), with(65_536)), (0, 4));
    }
    // and blues alone leave it as it is
    let mut edges = Table::of(vec![zoned(64, edge(70))]);
    let anchor = calls::align_edges_to_blues(&mut edges, Horizontal, Latin, &keep());
    assert_eq!((anchor, positions(&edges)), (Ok(None), vec![70]));
}

#[test]
fn the_fallback_is_the_separate_call_s_alone() {
    let edges = Table::of(vec![linked(0, 1), zoned(64, edge(60))]);
    for (dim, group) in [(Horizontal, Latin), (Vertical, Latin), (Vertical, Cjk)] {
        let given = on(dim, group);
        let alone = calls::fitted_stems(&mut edges.clone(), &stems_of(&given, None));
        assert_eq!(alone.map(|fitted| fitted.fallbacks), Ok(1));
    }
    for (dim, group) in [(Vertical, Latin), (Horizontal, Cjk), (Vertical, Cjk)] {
        let fitted = align_blues_and_stems(&mut edges.clone(), &on(dim, group));
        assert_eq!(fitted.map(|fitted| fitted.fallbacks), Ok(0));
    }
    // the table that the new refusal keeps away
    let refused = align_blues_and_stems(&mut edges.clone(), &on(Horizontal, Latin));
    assert_eq!(refused, Err(Refusal(2)));
}

/// Every table of three edges over done, neutral, zone, link and two places each: no fallback behind blues.
#[test]
fn no_small_table_reaches_the_fallback() {
    let (mut fitted, mut alone) = (0, 0);
    for number in 0..1 << 18 {
        let edges = Table::of(small_table(number));
        for (dim, group) in [(Vertical, Latin), (Horizontal, Cjk)] {
            let given = on(dim, group);
            let result = align_blues_and_stems(&mut edges.clone(), &given);
            assert_eq!(result.map(|fitted| fitted.fallbacks), Ok(0), "{number:b}");
            fitted += 1;
            let separate = calls::fitted_stems(&mut edges.clone(), &stems_of(&given, None));
            alone += usize::from(separate.is_ok_and(|fitted| fitted.fallbacks > 0));
        }
    }
    assert_eq!(fitted, 1 << 19);
    assert!(alone > 100_000, "{alone}");
}

/// Three edges, six bits each: done, neutral, a zone, and none, the first, the second or the third as its link; the sixth bit moves it.
fn small_table(number: usize) -> Vec<Edge> {
    let flag = |bits: usize, bit: usize, flag| match bits >> bit & 1 {
        1 => flag,
        _ => TopoFlags::NORMAL,
    };
    (0..3)
        .map(|ix| {
            let bits = number >> (6 * ix) & 63;
            let opos = 50 * ix + 40 * (bits >> 5) as i32;
            Edge {
                flags: flag(bits, 0, TopoFlags::DONE) | flag(bits, 1, TopoFlags::NEUTRAL),
                blue_edge: (bits >> 2 & 1 == 1).then_some(ScaledWidth { fitted: opos + 9 }),
                link_ix: (bits >> 3 & 3).checked_sub(1).map(|link| link as u16),
                ..edge(opos)
            }
        })
        .collect()
}

/// The made-up jobs of the call, of every profile.
fn made_up() -> Vec<(Table<Edge>, Joined)> {
    let mut random = Random::new(108);
    let lines = PROFILES.iter().flat_map(|(_, profile)| [*profile; 4_000]);
    lines
        .filter_map(|profile| job_of(&line(122, profile, &mut random)))
        .filter_map(|job| match job {
            Job::Joined(edges, given) => Some((edges, given)),
            _ => None,
        })
        .collect()
}

#[test]
fn made_up_jobs_equal_the_two_calls_in_a_row() {
    let (mut fitted, mut with_zone) = (0, 0);
    for (edges, given) in made_up() {
        let (mut joined, mut apart) = (edges.clone(), edges.clone());
        let result = handed(align_blues_and_stems(&mut joined, &given));
        if result.is_ok() {
            assert_eq!((result, &joined), (in_a_row(&mut apart, &given), &apart));
            fitted += 1;
            with_zone += usize::from(edges.items.iter().any(|edge| edge.blue_edge.is_some()));
            continue;
        }
        // refused, it answers what the stem call would, but for a blue where blues are skipped
        let alone = calls::align_stem_edges(&mut apart, &stems_of(&given, None));
        let skipped = given.group == Latin && given.dim == Horizontal;
        assert!(result == alone || result == Err(Refusal(2)) && skipped);
        assert_eq!(joined, edges);
    }
    assert!(fitted > 8_000 && with_zone > 4_000, "{fitted} {with_zone}");
}

/// Whether some made-up job is answered otherwise by a wrong call.
fn shows(wrong: impl Fn(&mut Table<Edge>, &Joined) -> Answer<(usize, Option<usize>)>) -> bool {
    made_up().into_iter().any(|(edges, given)| {
        let (mut right, mut other) = (edges.clone(), edges);
        let result = handed(align_blues_and_stems(&mut right, &given));
        (result, right) != (wrong(&mut other, &given), other)
    })
}

/// The right call.
fn right(edges: &mut Table<Edge>, given: &Joined) -> Answer<(usize, Option<usize>)> {
    handed(align_blues_and_stems(edges, given))
}

#[test]
fn slips_of_the_joined_call() {
    assert!(!shows(right));
    // the new refusal left out, so that the fallback runs
    assert!(shows(in_a_row));
    // stems alone, or without the blues' anchor; blues alone
    assert!(shows(|edges, given| {
        right(&mut edges.clone(), given)?;
        calls::align_stem_edges(edges, &stems_of(given, None))
    }));
    assert!(shows(|edges, given| {
        right(&mut edges.clone(), given)?;
        calls::align_edges_to_blues(edges, given.dim, given.group, &given.rule)?;
        calls::align_stem_edges(edges, &stems_of(given, None))
    }));
    assert!(shows(|edges, given| {
        let result = right(&mut edges.clone(), given)?;
        calls::align_edges_to_blues(edges, given.dim, given.group, &given.rule)?;
        Ok(result)
    }));
    // the blues' anchor handed back, or every edge counted that is not done
    assert!(shows(|edges, given| {
        let dim = given.dim;
        let anchor = calls::align_edges_to_blues(&mut edges.clone(), dim, given.group, &given.rule);
        Ok((right(edges, given)?.0, anchor?))
    }));
    assert!(shows(|edges, given| {
        let undone = |edge: &&Edge| !edge.flags.contains(TopoFlags::DONE);
        let count = edges.items.iter().filter(undone).count();
        Ok((count, right(edges, given)?.1))
    }));
}

#[test]
fn slips_of_the_new_refusal() {
    let refuses = |edges: &Table<Edge>, given: &Joined, blue: fn(&Edge) -> bool| {
        let skipped = given.group == Latin && given.dim == Horizontal;
        skipped && edges.items.iter().any(blue)
    };
    let but = |blue: fn(&Edge) -> bool| {
        move |edges: &mut Table<Edge>, given: &Joined| match right(&mut edges.clone(), given) {
            Err(Refusal(2)) if !refuses(edges, given, blue) => in_a_row(edges, given),
            _ => right(edges, given),
        }
    };
    // for edges that blues would act on alone: not done, or linked
    assert!(shows(but(
        |edge| edge.blue_edge.is_some() && !edge.flags.contains(TopoFlags::DONE)
    )));
    assert!(shows(but(
        |edge| edge.blue_edge.is_some() && edge.link_ix.is_some()
    )));
    // behind the others
    assert!(shows(|edges, given| {
        match right(&mut edges.clone(), given) {
            Err(Refusal(2)) => in_a_row(&mut edges.clone(), given).and(Err(Refusal(2))),
            _ => right(edges, given),
        }
    }));
    // on the other axes too
    let anywhere = |edges: &Table<Edge>| edges.items.iter().any(|edge| edge.blue_edge.is_some());
    for wide in [
        |given: &Joined| given.group == Latin,
        |given: &Joined| given.dim == Horizontal,
    ] {
        assert!(shows(|edges, given| {
            match right(&mut edges.clone(), given) {
                Ok(_) if wide(given) && anywhere(edges) => Err(Refusal(2)),
                _ => right(edges, given),
            }
        }));
    }
}

#[test]
fn the_words_of_the_call() {
    let given = Joined {
        stem_adjust: true,
        rule: WidthRule::Snap(vec![64]),
        ..on(Vertical, Cjk)
    };
    let job = Job::Joined(Table::of(vec![edge(5)]), given);
    let words = encode(&job);
    assert_eq!(words.values[..2], [122, 1]);
    assert_eq!(words.values[14..], [1, 1, 1, 0, 1, 1, 64]);
    // answer, count, anchor, edges
    let answer = answer(job).values;
    assert_eq!(answer[..4], [0, 1, -1, 1]);
    assert_eq!(answer.len(), 4 + 12);
}
