//! The guard: pairs kept, turned and without a pixel row, gaps and stems, its refusals, a second search, and slips that made-up jobs show.

use super::{done, edge, job_of, keep, linked};
use crate::{
    answer::answer,
    decode::decode,
    gaps::{lost_gaps, Lost, Pair},
    generate::{line, Random, PROFILES},
    job::{
        Dimension, Edge, Job, Joined, Mark, ScaledWidth, ScriptGroup, Table, TopoFlags, WidthRule,
    },
    joined::align_blues_and_stems,
    plain,
    refusals::{Answer, Refusal},
    words::encode,
};

/// A done edge that was at `opos` and is at `pos`.
fn placed(opos: i32, pos: i32) -> Edge {
    done(Edge { pos, ..edge(opos) })
}

/// The same, with a link.
fn tied(opos: i32, pos: i32, link: u16) -> Edge {
    Edge {
        link_ix: Some(link),
        ..placed(opos, pos)
    }
}

/// The words of the answer behind its number: gaps lost, first, second, before, after, stems lost, not done.
fn lost(edges: &[Edge], least: i32, linked: bool) -> [i32; 7] {
    let words = answer(Job::Gaps(Table::of(edges.to_vec()), least, linked)).values;
    assert_eq!((words[0], words.len()), (0, 8), "the edges are good");
    words[1..].try_into().expect("seven words")
}

/// The answer where nothing is lost, and so many edges are not done.
fn nothing(not_done: i32) -> [i32; 7] {
    [0, -1, -1, 0, 0, 0, not_done]
}

/// What blues and stems make of edges at these positions on Latin's vertical axis, with a zone at 0 for the first and two stems linked both ways.
fn fitted(oposes: &[i32], stems: [[u16; 2]; 2], rule: &WidthRule) -> Vec<Edge> {
    let mut edges: Vec<Edge> = oposes.iter().map(|opos| edge(*opos)).collect();
    edges[0].blue_edge = Some(ScaledWidth { fitted: 0 });
    for [one, other] in stems {
        edges[usize::from(one)].link_ix = Some(other);
        edges[usize::from(other)].link_ix = Some(one);
    }
    let given = Joined {
        dim: Dimension::Vertical,
        group: ScriptGroup::Default,
        stem_adjust: false,
        top_to_bottom: false,
        rule: rule.clone(),
    };
    let mut table = Table::of(edges);
    align_blues_and_stems(&mut table, &given).expect("the edges are good");
    table.items
}

/// Two bars that fuse.
fn bars(rule: &WidthRule) -> Vec<Edge> {
    fitted(&[0, 87, 157, 223, 287], [[1, 2], [3, 4]], rule)
}

/// A 3 that becomes an 8: its terminal's end, at 200, has no link and is not done.
fn three() -> Vec<Edge> {
    fitted(&[0, 100, 160, 200, 289, 349], [[1, 2], [4, 5]], &keep())
}

#[test]
fn the_tables_of_the_issue() {
    let places = |edges: &[Edge]| -> Vec<i32> { edges.iter().map(|edge| edge.pos).collect() };
    for rule in [keep(), WidthRule::Snap(Vec::new())] {
        assert_eq!(places(&bars(&rule)), [0, 119, 189, 192, 256]);
    }
    assert_eq!(places(&three()), [0, 130, 190, 200, 258, 318]);
    let not_done: Vec<bool> = three().iter().map(|edge| !is_done(edge)).collect();
    assert_eq!(not_done, [false, false, false, true, false, false]);
    let bars = || bars(&keep());
    let told = |edges, least, linked| answer(Job::Gaps(Table::of(edges), least, linked)).values;
    assert_eq!(told(bars(), 32, false), [0, 1, 2, 3, 66, 3, 0, 0]);
    assert_eq!(told(three(), 32, false), [0, 0, -1, -1, 0, 0, 0, 1]);
    // with links alone edge 0 of either does not count, and the bars fuse all the same; from 67 units on nobody asks
    assert_eq!(told(bars(), 32, true), [0, 1, 2, 3, 66, 3, 0, 0]);
    assert_eq!(told(bars(), 66, false), [0, 1, 2, 3, 66, 3, 0, 0]);
    assert_eq!(told(bars(), 67, false), [0, 0, -1, -1, 0, 0, 0, 0]);
    // were the terminal placed where the weak points take it, the aperture would be told: it is no side of a gap where links are asked for
    let mut placed_three = three();
    placed_three[3] = placed(200, 169);
    let told_placed = |linked| told(placed_three.clone(), 32, linked);
    assert_eq!(told_placed(false), [0, 1, 2, 3, 40, -21, 0, 0]);
    assert_eq!(told_placed(true), [0, 0, -1, -1, 0, 0, 0, 0]);
}

#[test]
fn rows_are_counted_by_their_centres() {
    for low in -200..=200 {
        for high in -200..=200 {
            let edges = Table::of(vec![placed(0, low), placed(1, high)]);
            let rows = (low..high).filter(|unit| unit.rem_euclid(64) == 32).count();
            let found = lost_gaps(&edges, 0, false).expect("the edges are good");
            assert_eq!(found.gaps, usize::from(rows == 0), "{low} to {high}");
            assert_eq!(found, plain::lost_gaps(&edges.items, 0, false));
        }
    }
}

#[test]
fn a_centre_belongs_to_the_pixel_above_the_lower_side() {
    for centre in [-16_777_184, -96, -32, 32, 96, 16_777_184] {
        for (low, high, is_lost) in [
            (centre, centre + 1, false),
            (centre - 1, centre, true),
            (centre - 1, centre + 1, false),
            (centre + 1, centre + 32, true),
            (centre - 32, centre, true),
            (centre, centre, true),
        ] {
            let edges = [placed(0, low), placed(64, high)];
            let expected = match is_lost {
                true => [1, 0, 1, 64, high - low, 0, 0],
                false => nothing(0),
            };
            assert_eq!(lost(&edges, 64, false), expected, "{low} to {high}");
        }
    }
}

#[test]
fn a_gap_is_lost_where_it_is_turned_or_has_no_row() {
    for (before, after, is_lost) in [
        // from 20 on: the centre at 32 is in from 13 units on
        (64, 13, false),
        (64, 12, true),
        (64, 1, true),
        (64, 0, true),
        (64, -1, true),
        (1, 12, true),
        (1, 13, false),
        // two edges at one place: without a row before, so that only turning loses it
        (0, 12, false),
        (0, 0, false),
        (0, -1, true),
        // one that was turned before was never wide enough
        (-1, 0, false),
        (-1, -9, false),
    ] {
        let edges = [placed(10, 20), placed(10 + before, 20 + after)];
        let expected = match is_lost {
            true => [1, 0, 1, before, after, 0, 0],
            false => nothing(0),
        };
        assert_eq!(lost(&edges, 0, false), expected, "{before} to {after}");
        // the same as a stem, which is told whatever its width: also one that was turned before, and is
        let stem = [tied(10, 20, 1), tied(10 + before, 20 + after, 0)];
        let expected = match is_lost || (before, after) == (-1, -9) {
            true => [0, 0, 1, before, after, 1, 0],
            false => nothing(0),
        };
        for least in [0, 32, 65, 65_535] {
            assert_eq!(lost(&stem, least, true), expected, "{before} to {after}");
        }
    }
}

#[test]
fn a_gap_counts_from_the_least_width_on() {
    let edges = [placed(0, 0), placed(32, -5)];
    assert_eq!(lost(&edges, 32, false), [1, 0, 1, 32, -5, 0, 0]);
    assert_eq!(lost(&edges, 33, false), nothing(0));
    let edges = [placed(-65_535, 7), placed(65_535, 7)];
    assert_eq!(lost(&edges, 65_535, false), [1, 0, 1, 131_070, 0, 0, 0]);
    let far = [placed(0, 16_777_216), placed(1, -16_777_216)];
    assert_eq!(lost(&far, 1, false), [1, 0, 1, 1, -33_554_432, 0, 0]);
}

#[test]
fn a_stem_is_a_pair_of_which_one_names_the_other() {
    // both ways, either way; to themselves, and crosswise over serifs, which make no stem
    let closed = |links: [Option<u16>; 2], serifs: [Option<u16>; 2]| {
        let edges = [0, 1].map(|ix| Edge {
            link_ix: links[ix],
            serif_ix: serifs[ix],
            ..placed(10 * ix as i32, 0)
        });
        lost(&edges, 0, false)
    };
    let (stem, gap) = ([0, 0, 1, 10, 0, 1, 0], [1, 0, 1, 10, 0, 0, 0]);
    assert_eq!(closed([Some(1), Some(0)], [None, None]), stem);
    assert_eq!(closed([Some(1), None], [None, None]), stem);
    assert_eq!(closed([None, Some(0)], [None, None]), stem);
    assert_eq!(closed([Some(0), Some(1)], [None, None]), gap);
    assert_eq!(closed([None, None], [Some(1), Some(0)]), gap);
    // a stem about an edge that does not count, and a gap whose sides name another edge
    let across = [tied(0, 0, 2), edge(5), tied(10, 0, 1), tied(20, 0, 1)];
    assert_eq!(lost(&across, 0, true), [1, 0, 2, 10, 0, 1, 1]);
    // links of edges that do not count make no stem
    let crossed = [tied(0, 0, 1), linked(5, 0), tied(10, 0, 1)];
    assert_eq!(lost(&crossed, 0, true), [1, 0, 2, 10, 0, 0, 1]);
}

#[test]
fn edges_without_a_link_count_unless_links_are_asked_for() {
    let edges = [
        tied(0, 0, 1),
        tied(64, 64, 0),
        placed(80, 64),
        tied(100, 64, 4),
        tied(164, 128, 3),
    ];
    assert_eq!(lost(&edges, 0, false), [2, 1, 2, 16, 0, 0, 0]);
    assert_eq!(lost(&edges, 0, true), [1, 1, 3, 36, 0, 0, 0]);
    assert_eq!(lost(&edges, 20, false), [1, 2, 3, 20, 0, 0, 0]);
    // a link to itself is one, a serif is none
    let own = [tied(0, 0, 0), tied(64, 0, 1)];
    assert_eq!(lost(&own, 0, true), [1, 0, 1, 64, 0, 0, 0]);
    let serif = own.map(|edge| Edge {
        link_ix: None,
        serif_ix: Some(1),
        ..edge
    });
    assert_eq!(lost(&serif, 0, true), nothing(0));
    assert_eq!(lost(&serif, 0, false), [1, 0, 1, 64, 0, 0, 0]);
}

#[test]
fn edges_that_are_not_done_are_in_no_pair() {
    let passed_over = |opos: i32, pos: i32| Edge { pos, ..edge(opos) };
    // between two that are done, at either end, and alone
    let edges = [
        passed_over(0, 900),
        placed(10, 10),
        passed_over(40, -100),
        passed_over(50, 500),
        placed(60, 10),
        passed_over(90, -900),
    ];
    assert_eq!(lost(&edges, 0, false), [1, 1, 4, 50, 0, 0, 4]);
    assert_eq!(lost(&edges, 51, false), nothing(4));
    // asked for links or not, those that are not done are told
    assert_eq!(lost(&edges, 0, true), nothing(4));
    assert_eq!(lost(&edges[..4], 0, false), nothing(3));
    let none = [passed_over(0, 0), passed_over(9, -9)];
    assert_eq!(lost(&none, 0, false), nothing(2));
    assert_eq!(lost(&[], 0, false), nothing(0));
    assert_eq!(lost(&[placed(5, -5)], 0, false), nothing(0));
}

#[test]
fn the_first_is_named_and_all_are_counted() {
    let edges = [
        placed(0, 0),
        placed(10, 33),
        placed(20, 33),
        placed(30, 100),
        placed(99, 98),
        placed(100, 98),
    ];
    assert_eq!(lost(&edges, 0, false), [3, 1, 2, 10, 0, 0, 0]);
    assert_eq!(lost(&edges, 11, false), [1, 3, 4, 69, -2, 0, 0]);
    // a pair is of neighbours alone: 0 to 2 is turned, 0 to 1 is, and 1 to 2 is not
    let edges = [placed(0, 50), placed(10, 20), placed(20, 40)];
    assert_eq!(lost(&edges, 0, false), [1, 0, 1, 10, -30, 0, 0]);
    // the first of either kind: a stem in front of a gap, and a gap in front of a stem
    let edges = [tied(0, 0, 1), tied(10, 0, 0), placed(20, 0), tied(30, 0, 2)];
    assert_eq!(lost(&edges, 0, false), [1, 0, 1, 10, 0, 2, 0]);
    assert_eq!(lost(&edges, 11, false), [0, 0, 1, 10, 0, 2, 0]);
    let edges = [placed(0, 0), tied(10, 0, 2), tied(20, 0, 1)];
    assert_eq!(lost(&edges, 0, false), [1, 0, 1, 10, 0, 1, 0]);
    assert_eq!(lost(&edges, 11, false), [0, 1, 2, 10, 0, 1, 0]);
    // all of 128
    let edges: Vec<Edge> = (0..128).map(|ix| placed(ix, -ix)).collect();
    assert_eq!(lost(&edges, 1, false), [127, 0, 1, 1, -1, 0, 0]);
    let edges: Vec<Edge> = (0..128).map(|ix| tied(ix, -ix, ix as u16 ^ 1)).collect();
    assert_eq!(lost(&edges, 1, true), [63, 0, 1, 1, -1, 64, 0]);
}

/// What the guard answers to three edges with one change, and a least width.
fn changed(least: i32, change: impl Fn(&mut Table<Edge>)) -> i32 {
    let mut edges = Table::of(vec![linked(0, 1), linked(60, 0), edge(100)]);
    change(&mut edges);
    let answers = [false, true].map(|linked| lost_gaps(&edges, least, linked).err());
    assert_eq!(answers[0], answers[1]);
    answers[0].map_or(0, |refusal| refusal.0)
}

#[test]
fn the_guard_refuses() {
    assert_eq!(changed(0, |_| {}), 0);
    assert_eq!(changed(65_535, |_| {}), 0);
    for least in [-1, 65_536, i32::MIN, i32::MAX] {
        assert_eq!(changed(least, |_| {}), 2);
        assert_eq!(changed(least, |edges| edges.count = 129), 1);
        assert_eq!(changed(least, |edges| edges.items[0].link_ix = Some(3)), 2);
    }
    assert_eq!(changed(0, |edges| edges.items[0].link_ix = Some(3)), 3);
    assert_eq!(changed(0, |edges| edges.items[2].serif_ix = Some(9)), 3);
    let far = |edges: &mut Table<Edge>| edges.items[2].opos = 65_536;
    assert_eq!(changed(0, far), 4);
    assert_eq!(changed(0, |edges| edges.items[2].pos = -16_777_217), 4);
    let zone = |fitted| {
        move |edges: &mut Table<Edge>| {
            edges.items[2].blue_edge = Some(ScaledWidth { fitted });
        }
    };
    assert_eq!((changed(0, zone(65_535)), changed(0, zone(65_536))), (0, 4));
    let both = |edges: &mut Table<Edge>| {
        far(edges);
        edges.items[0].serif_ix = Some(3);
    };
    assert_eq!((changed(0, both), changed(-1, both)), (3, 2));
}

/// A job of the guard.
type Asked = (Table<Edge>, i32, bool);

/// The made-up jobs of the guard, of every profile.
fn made_up() -> Vec<Asked> {
    let mut random = Random::new(30);
    let lines = PROFILES.iter().flat_map(|(_, profile)| [*profile; 4_000]);
    lines
        .filter_map(|profile| job_of(&line(127, profile, &mut random)))
        .filter_map(|job| match job {
            Job::Gaps(edges, least, linked) => Some((edges, least, linked)),
            _ => None,
        })
        .collect()
}

/// Whether an edge is done.
fn is_done(edge: &Edge) -> bool {
    edge.flags.contains(TopoFlags::DONE)
}

/// How the guard's sentences are read, each by itself.
#[derive(Copy, Clone)]
struct Reading {
    /// Rows between two positions, of which the second is above the first.
    rows: fn(i32, i32) -> i32,
    /// Whether an edge, at its place in the table, counts where links are asked for or not.
    counts: fn(&Edge, usize, bool) -> bool,
    /// Whether two edges are a stem, by whether the first names the second and the second the first.
    is_stem: fn(bool, bool) -> bool,
    /// Whether a pair, a stem or not, was wide enough for the least width.
    asked: fn(bool, i32, i32) -> bool,
    /// Whether a pair is gone, by its widths before and after and its rows.
    gone: fn(i32, i32, i32) -> bool,
    /// What is told of the lost pairs and the table.
    told: fn(&[Pair], &[Edge], bool) -> Lost,
}

/// The sentences as they are, with the rows by the issue's formula.
const RIGHT: Reading = Reading {
    rows: |p, q| (q + 31).div_euclid(64) - (p + 31).div_euclid(64),
    counts: |edge, _, linked| is_done(edge) && (edge.link_ix.is_some() || !linked),
    is_stem: |one, other| one || other,
    asked: |is_stem, before, least| is_stem || before >= least,
    gone: |before, after, rows| after < 0 || rows == 0 && before > 0,
    told: |found, edges, _| Lost {
        gaps: found.iter().filter(|pair| !pair.is_stem).count(),
        first: found.first().copied(),
        stems: found.iter().filter(|pair| pair.is_stem).count(),
        not_done: edges.len() - edges.iter().filter(|edge| is_done(edge)).count(),
    },
};

impl Reading {
    /// The lost pairs, by trying every two edges.
    fn found(&self, edges: &[Edge], least: i32, linked: bool) -> Vec<Pair> {
        let counts = |ix: usize| (self.counts)(&edges[ix], ix, linked);
        let mut found = Vec::new();
        for second in 0..edges.len() {
            for first in 0..second {
                let (a, b) = (&edges[first], &edges[second]);
                let (before, after) = (b.opos - a.opos, b.pos - a.pos);
                let rows = if b.pos > a.pos {
                    (self.rows)(a.pos, b.pos)
                } else {
                    0
                };
                let names = a.link_ix == Some(second as u16);
                let is_stem = (self.is_stem)(names, b.link_ix == Some(first as u16));
                if counts(first)
                    && counts(second)
                    && !(first + 1..second).any(counts)
                    && (self.asked)(is_stem, before, least)
                    && (self.gone)(before, after, rows)
                {
                    found.push(Pair {
                        first,
                        second,
                        before,
                        after,
                        is_stem,
                        has_row: rows > 0,
                    });
                }
            }
        }
        found
    }

    /// The guard by this reading.
    fn guard(&self, (edges, least, linked): &Asked) -> Answer<Lost> {
        lost_gaps(edges, *least, *linked)?;
        let found = self.found(&edges.items, *least, *linked);
        Ok((self.told)(&found, &edges.items, *linked))
    }
}

#[test]
fn made_up_jobs_by_pairs() {
    let mut counts = [0; 12];
    for (edges, least, linked) in made_up() {
        let Ok(lost) = lost_gaps(&edges, least, linked) else {
            continue;
        };
        let found = RIGHT.found(&edges.items, least, linked);
        assert_eq!(lost, (RIGHT.told)(&found, &edges.items, linked));
        assert_eq!(lost, plain::lost_gaps(&edges.items, least, linked));
        let any = |what: fn(&Pair) -> bool| found.iter().any(what);
        let met = [
            true,
            lost.gaps > 0,
            lost.stems > 0,
            lost.gaps > 0 && lost.stems > 0,
            any(|pair| pair.after < 0),
            any(|pair| pair.after == 0),
            any(|pair| pair.after > 0 && !pair.is_stem),
            any(|pair| pair.after > 0 && pair.is_stem),
            any(|pair| pair.second > pair.first + 1),
            lost.not_done > 0,
            linked && lost.gaps + lost.stems > 0,
            edges.items.iter().filter(|edge| is_done(edge)).count() < 3,
        ];
        for (count, met) in counts.iter_mut().zip(met) {
            *count += usize::from(met);
        }
    }
    let least = [
        8_000, 2_000, 2_500, 1_000, 2_500, 1_000, 900, 900, 700, 4_000, 1_500, 3_000,
    ];
    assert!(
        counts.iter().zip(least).all(|(n, least)| *n > least),
        "{counts:?}"
    );
}

/// The pairs of edges that count, whether lost or not: their places in the table.
fn pairs(edges: &[Edge], linked: bool) -> Vec<[usize; 2]> {
    let counted = (0..edges.len()).filter(|ix| (RIGHT.counts)(&edges[*ix], *ix, linked));
    let counted: Vec<usize> = counted.collect();
    counted.windows(2).map(|two| [two[0], two[1]]).collect()
}

#[test]
fn made_up_positions_are_at_every_offset_of_a_pixel() {
    // how many pairs that are not turned or closed have a row, or none, by the offset and the sign of their lower and of their upper position
    let mut met = [[[[0; 2]; 2]; 64]; 2];
    for (edges, least, linked) in made_up() {
        if lost_gaps(&edges, least, linked).is_err() {
            continue;
        }
        for [first, second] in pairs(&edges.items, linked) {
            let (low, high) = (edges.items[first].pos, edges.items[second].pos);
            if high > low {
                let hidden = usize::from((RIGHT.rows)(low, high) == 0);
                for (side, at) in [low, high].into_iter().enumerate() {
                    let offset = at.rem_euclid(64) as usize;
                    met[side][offset][usize::from(at < 0)][hidden] += 1;
                }
            }
        }
    }
    for (side, offset, sign) in (0..256).map(|ix| (ix & 1, ix >> 2, ix >> 1 & 1)) {
        let [shown, hidden] = met[side][offset][sign];
        // a pair whose lower side is at a centre, or whose upper side is right above one, has a row
        let never = (side, offset) == (0, 32) || (side, offset) == (1, 33);
        assert!(
            shown > 0 && (hidden > 0) != never,
            "{side} {offset} {sign}: {shown} {hidden}"
        );
    }
}

#[test]
fn nothing_lost_means_a_row_between_the_two_of_every_pair() {
    let (mut gaps, mut stems) = (0, 0);
    for (edges, least, linked) in made_up() {
        match lost_gaps(&edges, least, linked) {
            Ok(lost) if lost.first.is_none() => assert_eq!((lost.gaps, lost.stems), (0, 0)),
            _ => continue,
        }
        for [first, second] in pairs(&edges.items, linked) {
            let (low, high) = (&edges.items[first], &edges.items[second]);
            let names = |edge: &Edge, other: usize| edge.link_ix == Some(other as u16);
            let is_stem = names(low, second) || names(high, first);
            let width = high.opos - low.opos;
            if width > 0 && (is_stem || width >= least) {
                assert!(high.pos > low.pos && (RIGHT.rows)(low.pos, high.pos) > 0);
                gaps += usize::from(!is_stem);
                stems += usize::from(is_stem);
            }
        }
    }
    assert!(gaps > 500 && stems > 500, "{gaps} {stems}");
}

#[test]
fn nothing_lost_means_that_order_is_kept() {
    let mut kept = 0;
    for (edges, ..) in made_up() {
        let placed: Vec<&Edge> = edges.items.iter().filter(|edge| is_done(edge)).collect();
        let rises = placed.windows(2).all(|pair| pair[0].opos <= pair[1].opos);
        let lost = lost_gaps(&edges, 0, false);
        if !rises || lost.map_or(true, |lost| lost.first.is_some()) {
            continue;
        }
        for (ix, low) in placed.iter().enumerate() {
            let above = &placed[ix + 1..];
            assert!(above.iter().all(|high| low.pos <= high.pos));
            assert!(above
                .iter()
                .all(|high| low.opos == high.opos || low.pos < high.pos));
        }
        kept += usize::from(placed.len() > 2);
    }
    assert!(kept > 150, "{kept}");
}

/// Wrong readings of the guard's sentences: what is wrong, and the reading.
fn wrong_readings() -> Vec<(&'static str, Reading)> {
    let rows = |rows| Reading { rows, ..RIGHT };
    let counts = |counts| Reading { counts, ..RIGHT };
    let is_stem = |is_stem| Reading { is_stem, ..RIGHT };
    let asked = |asked| Reading { asked, ..RIGHT };
    let gone = |gone| Reading { gone, ..RIGHT };
    let told = |told| Reading { told, ..RIGHT };
    vec![
        (
            "a centre on the upper side counted",
            rows(|p, q| (q + 32).div_euclid(64) - (p + 31).div_euclid(64)),
        ),
        (
            "a centre on the lower side not counted",
            rows(|p, q| (q + 31).div_euclid(64) - (p + 32).div_euclid(64)),
        ),
        (
            "the sides exchanged",
            rows(|p, q| (q + 32).div_euclid(64) - (p + 32).div_euclid(64)),
        ),
        (
            "rounded toward zero below 0",
            rows(|p, q| (q + 31) / 64 - (p + 31) / 64),
        ),
        (
            "pixels' lower sides in place of their centres",
            rows(|p, q| (q + 63).div_euclid(64) - (p + 63).div_euclid(64)),
        ),
        ("whole pixels of the width", rows(|p, q| (q - p) / 64)),
        ("closed alone, as before rows", rows(|p, q| q - p)),
        (
            "edges without a link counted though asked not to",
            counts(|edge, _, _| is_done(edge)),
        ),
        (
            "edges without a link never counted",
            counts(|edge, _, _| is_done(edge) && edge.link_ix.is_some()),
        ),
        (
            "the choice turned over",
            counts(|edge, _, linked| is_done(edge) && (edge.link_ix.is_some() || linked)),
        ),
        (
            "a serif taken for a link",
            counts(|edge, _, linked| {
                is_done(edge) && (edge.link_ix.or(edge.serif_ix).is_some() || !linked)
            }),
        ),
        (
            "a link to itself taken for none",
            counts(|edge, ix, linked| {
                let other = edge.link_ix.is_some_and(|link| usize::from(link) != ix);
                is_done(edge) && (other || !linked)
            }),
        ),
        (
            "edges that are not done counted",
            counts(|edge, _, linked| edge.link_ix.is_some() || !linked),
        ),
        ("a stem by the first's link alone", is_stem(|one, _| one)),
        (
            "a stem by the second's link alone",
            is_stem(|_, other| other),
        ),
        (
            "a stem by both links alone",
            is_stem(|one, other| one && other),
        ),
        ("every pair a gap", is_stem(|_, _| false)),
        (
            "a stem held to the least width",
            asked(|_, before, least| before >= least),
        ),
        ("a gap of any width", asked(|_, _, _| true)),
        (
            "wider than the least alone",
            asked(|is_stem, before, least| is_stem || before > least),
        ),
        (
            "turned taken for kept",
            gone(|before, after, rows| after >= 0 && rows == 0 && before > 0),
        ),
        (
            "without a row taken for kept",
            gone(|_, after, _| after < 0),
        ),
        (
            "closed taken for kept",
            gone(|before, after, rows| after < 0 || after > 0 && rows == 0 && before > 0),
        ),
        (
            "two edges at one place without a row",
            gone(|_, after, rows| after < 0 || rows == 0),
        ),
        (
            "turned by the width before",
            gone(|before, _, rows| before < 0 || rows == 0 && before > 0),
        ),
        (
            "nothing found",
            told(|_, edges, linked| (RIGHT.told)(&[], edges, linked)),
        ),
        (
            "the last named",
            told(|found, edges, linked| Lost {
                first: found.last().copied(),
                ..(RIGHT.told)(found, edges, linked)
            }),
        ),
        (
            "the first pair alone looked at",
            told(|found, edges, linked| (RIGHT.told)(&found[..found.len().min(1)], edges, linked)),
        ),
        (
            "the first gap named",
            told(|found, edges, linked| Lost {
                first: found.iter().find(|pair| !pair.is_stem).copied(),
                ..(RIGHT.told)(found, edges, linked)
            }),
        ),
        (
            "gaps named in front of stems",
            told(|found, edges, linked| {
                let gap = found.iter().find(|pair| !pair.is_stem);
                Lost {
                    first: gap.or(found.first()).copied(),
                    ..(RIGHT.told)(found, edges, linked)
                }
            }),
        ),
        (
            "stems counted as gaps too",
            told(|found, edges, linked| Lost {
                gaps: found.len(),
                ..(RIGHT.told)(found, edges, linked)
            }),
        ),
        (
            "gaps and stems exchanged",
            told(|found, edges, linked| {
                let right = (RIGHT.told)(found, edges, linked);
                Lost {
                    gaps: right.stems,
                    stems: right.gaps,
                    ..right
                }
            }),
        ),
        (
            "the widths exchanged",
            told(|found, edges, linked| {
                let right = (RIGHT.told)(found, edges, linked);
                let turned = |pair: Pair| Pair {
                    before: pair.after,
                    after: pair.before,
                    ..pair
                };
                Lost {
                    first: right.first.map(turned),
                    ..right
                }
            }),
        ),
        (
            "neighbours in the table alone",
            told(|found, edges, linked| {
                let near = found.iter().filter(|pair| pair.second == pair.first + 1);
                let near: Vec<Pair> = near.copied().collect();
                (RIGHT.told)(&near, edges, linked)
            }),
        ),
        (
            "edges that do not count taken for not done",
            told(|found, edges, linked| {
                let counts = |edge: &&Edge| (RIGHT.counts)(edge, 0, linked);
                Lost {
                    not_done: edges.len() - edges.iter().filter(counts).count(),
                    ..(RIGHT.told)(found, edges, linked)
                }
            }),
        ),
        (
            "the edges that are done told",
            told(|found, edges, linked| Lost {
                not_done: edges.iter().filter(|edge| is_done(edge)).count(),
                ..(RIGHT.told)(found, edges, linked)
            }),
        ),
    ]
}

#[test]
fn slips_of_the_guard() {
    let jobs = made_up();
    let shows = |wrong: &dyn Fn(&Asked) -> Answer<Lost>| {
        let right = |(edges, least, linked): &Asked| lost_gaps(edges, *least, *linked);
        jobs.iter().any(|asked| right(asked) != wrong(asked))
    };
    assert!(!shows(&|asked| RIGHT.guard(asked)));
    for (slip, reading) in wrong_readings() {
        assert!(shows(&|asked| reading.guard(asked)), "{slip}");
    }
    // the least width tested behind the indices, or not at all
    assert!(shows(&|(edges, least, linked)| {
        lost_gaps(edges, 0, *linked)?;
        lost_gaps(edges, *least, *linked)
    }));
    assert!(shows(&|(edges, least, linked)| {
        match lost_gaps(edges, *least, *linked) {
            Err(Refusal(2)) => lost_gaps(edges, (*least).clamp(0, 65_535), *linked),
            other => other,
        }
    }));
}

#[test]
fn the_words_of_the_guard() {
    let job = |least, linked| {
        let edges = vec![
            placed(0, 5),
            Edge {
                mark: Mark::Stem,
                ..placed(40, 2)
            },
        ];
        Job::Gaps(Table::of(edges), least, linked)
    };
    let words = encode(&job(32, true)).values;
    assert_eq!((words[0], words[1], words.len()), (127, 2, 2 + 24 + 2));
    assert_eq!(words[26..], [32, 1]);
    assert_eq!(encode(&job(32, false)).values[26..], [32, 0]);
    for (linked, is_job) in [(0, true), (1, true), (2, false), (-1, false), (256, false)] {
        let mut words = words.clone();
        words[27] = linked;
        assert_eq!(decode(&words).is_some(), is_job);
    }
    // the form without the choice is a job no more
    assert!(decode(&words[..27]).is_none());
    let named = answer(job(32, false));
    assert_eq!(named.values, [0, 1, 0, 1, 40, -3, 0, 0]);
    assert_eq!(
        named.names,
        [
            "answer",
            "gaps lost",
            "first edge",
            "second edge",
            "width before",
            "width after",
            "stems lost",
            "not done"
        ]
    );
    assert_eq!(answer(job(41, false)).values, [0, 0, -1, -1, 0, 0, 0, 0]);
    assert_eq!(answer(job(-1, true)).values, [2, 0, -1, -1, 0, 0, 0, 0]);
    let far = vec![placed(0, 5), edge(-65_536)];
    let far = answer(Job::Gaps(Table::of(far), 0, false)).values;
    assert_eq!(far, [4, 0, -1, -1, 0, 0, 0, 0]);
}
