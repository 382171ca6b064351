//! Request #107: worked axes, what is claimed of every small one and of made-up ones, and slips that made-up jobs show.

use super::{job_of, segment};
use crate::{
    answer::answer,
    generate::{line, small_axes, Random, PROFILES},
    job::{Edge, Job, ScaledWidth, Segment, Table},
    limits::{EDGES, SEGMENTS},
    mend::{is_sound, mend, Alteration, Field, Side},
    refusals::{self, Answer, Refusal},
    turn::turn_over,
};
use std::convert::Infallible;

/// Both tables of an axis.
type Axis = (Table<Segment>, Table<Edge>);

/// A segment of an edge, with its next.
fn on(edge_ix: Option<u16>, edge_next_ix: Option<u16>) -> Segment {
    Segment {
        edge_ix,
        edge_next_ix,
        ..segment(0)
    }
}

/// An edge with its first and last segment.
fn ring(first_ix: u16, last_ix: u16) -> Edge {
    Edge {
        first_ix,
        last_ix,
        ..Edge::default()
    }
}

/// An axis of these, each segment its edge and next.
fn axis(segments: &[(Option<u16>, Option<u16>)], ends: &[(u16, u16)]) -> Axis {
    let segments = segments.iter().map(|(edge, next)| on(*edge, *next));
    let edges = ends.iter().map(|(first, last)| ring(*first, *last));
    (Table::of(segments.collect()), Table::of(edges.collect()))
}

/// What mending lists of an axis, for a person, one alteration each.
fn listed(given: &Axis) -> Vec<String> {
    let mut mended = given.clone();
    let altered = mend(&mut mended.0, &mut mended.1).expect("the axis is accepted");
    held_to_claims(given, &mended, &altered);
    let name = |index: Option<u16>| index.map_or("none".into(), |ix| ix.to_string());
    let told = |a: &Alteration| {
        let side = match a.side {
            Side::Segments => "segment",
            Side::Edges => "edge",
        };
        let field = format!("{:?}", a.field).to_lowercase();
        format!("{side} {} {field} {} {}", a.index, name(a.old), name(a.new))
    };
    altered.iter().map(told).collect()
}

/// What the request claims of an axis that was mended.
fn held_to_claims(given: &Axis, mended: &Axis, altered: &[Alteration]) {
    // it has only sound rings, and passes document 01's index test
    assert!(rings_are_sound(mended), "{given:?}");
    assert!(indices_hold(mended), "{given:?}");
    // the list is empty exactly of a sound axis
    let sound = rings_are_sound(given) && indices_hold(given);
    assert_eq!(altered.is_empty(), sound, "{given:?}");
    assert_eq!(given == mended, sound);
    assert!(altered.len() <= 3 * given.0.count + 4 * given.1.count);
    // in order, each field once, and altered
    let places = altered
        .iter()
        .map(|a| (a.side as u8, a.index, a.field as u8));
    assert!(places.clone().zip(places.skip(1)).all(|(a, b)| a < b));
    assert!(altered.iter().all(|a| a.old != a.new));
    // the list undone gives the axis back: so it names every field that was altered, and no other
    let mut back = mended.clone();
    for alteration in altered {
        assert_eq!(set(&mut back, alteration), alteration.new);
    }
    assert_eq!(back, *given);
    // mended twice is mended once
    let mut twice = mended.clone();
    assert_eq!(mend(&mut twice.0, &mut twice.1), Ok(Vec::new()));
    assert_eq!(twice, *mended);
    // the converter takes it, and an axis may be made smaller
    let (mut segments, mut edges) = mended.clone();
    assert_eq!(turn_over(&mut segments, &mut edges), Ok(()));
    assert_eq!(refusals::pack(&mended.0, &mended.1), Ok(()));
}

/// Sets a field to the old value of an alteration, and hands back what it held.
fn set(axis: &mut Axis, alteration: &Alteration) -> Option<u16> {
    let Alteration {
        side,
        index,
        field,
        old,
        ..
    } = *alteration;
    let number = |place: &mut u16| {
        let held = Some(*place);
        *place = old.expect("an edge has a first and a last");
        held
    };
    let (segment, edge) = (axis.0.items.get_mut(index), axis.1.items.get_mut(index));
    let link = |place: &mut Option<u16>| std::mem::replace(place, old);
    match (side, field, segment, edge) {
        (Side::Segments, Field::Link, Some(segment), _) => link(&mut segment.link_ix),
        (Side::Segments, Field::Serif, Some(segment), _) => link(&mut segment.serif_ix),
        (Side::Segments, Field::Next, Some(segment), _) => link(&mut segment.edge_next_ix),
        (Side::Edges, Field::Link, _, Some(edge)) => link(&mut edge.link_ix),
        (Side::Edges, Field::Serif, _, Some(edge)) => link(&mut edge.serif_ix),
        (Side::Edges, Field::First, _, Some(edge)) => number(&mut edge.first_ix),
        (Side::Edges, Field::Last, _, Some(edge)) => number(&mut edge.last_ix),
        _ => panic!("{alteration:?} is of no field"),
    }
}

/// Whether every ring is sound: by every order of an edge's segments, of which one must be followed; of long rings by the oracle's own test.
fn rings_are_sound((segments, edges): &Axis) -> bool {
    (0..edges.count).all(|ix| {
        let own = is_sound(&segments.items, &edges.items, ix);
        if segments.count <= 4 {
            assert_eq!(own, sound_by_orders(&segments.items, &edges.items, ix));
        }
        own
    })
}

/// Whether some order of an edge's segments begins at its first, is led through by nexts, ends at its last, and leads back.
fn sound_by_orders(segments: &[Segment], edges: &[Edge], edge: usize) -> bool {
    let of_edge = |ix: &usize| segments[*ix].edge_ix == Some(edge as u16);
    let members: Vec<usize> = (0..segments.len()).filter(of_edge).collect();
    orders(&members).iter().any(|order| {
        let ends = order.first().zip(order.last());
        let leads = |from: usize, to: usize| segments[from].edge_next_ix == Some(to as u16);
        ends.is_some_and(|(first, last)| {
            (*first as u16, *last as u16) == (edges[edge].first_ix, edges[edge].last_ix)
                && order.windows(2).all(|pair| leads(pair[0], pair[1]))
                && leads(*last, *first)
        })
    })
}

/// Every order of some numbers.
fn orders(numbers: &[usize]) -> Vec<Vec<usize>> {
    if numbers.is_empty() {
        return vec![Vec::new()];
    }
    let first = |ix: usize| {
        let mut rest = numbers.to_vec();
        let first = rest.remove(ix);
        let behind = orders(&rest).into_iter();
        behind.map(move |order| [vec![first], order].concat())
    };
    (0..numbers.len()).flat_map(first).collect()
}

/// Document 01's index test, of every index of both tables.
fn indices_hold((segments, edges): &Axis) -> bool {
    let below = |ix: Option<u16>, count: usize| ix.is_none_or(|ix| usize::from(ix) < count);
    let (n, m) = (segments.count, edges.count);
    let of_segment = |s: &Segment| {
        let own = [s.link_ix, s.serif_ix, s.edge_next_ix];
        own.iter().all(|ix| below(*ix, n)) && below(s.edge_ix, m)
    };
    let of_edge = |e: &Edge| {
        [e.link_ix, e.serif_ix].iter().all(|ix| below(*ix, m))
            && [e.first_ix, e.last_ix].iter().all(|ix| below(Some(*ix), n))
    };
    segments.items.iter().all(of_segment) && edges.items.iter().all(of_edge)
}

#[test]
fn sound_axes_yield_an_empty_list() {
    let none: Vec<String> = Vec::new();
    assert_eq!(listed(&axis(&[], &[])), none);
    // a lone segment leads to itself
    assert_eq!(listed(&axis(&[(Some(0), Some(0))], &[(0, 0)])), none);
    // any order is sound, and so is a loop entered one step further round
    let round = [(Some(0), Some(2)), (Some(0), Some(0)), (Some(0), Some(1))];
    for ends in [(0, 1), (2, 0), (1, 2)] {
        assert_eq!(listed(&axis(&round, &[ends])), none);
    }
    // a next of a segment without an edge that is in its list stays, into a ring too
    let loose = [(Some(0), Some(0)), (None, Some(0)), (None, Some(1))];
    assert_eq!(listed(&axis(&loose, &[(0, 0)])), none);
}

#[test]
fn broken_rings_are_made_anew() {
    // a lone segment that leads nowhere
    assert_eq!(
        listed(&axis(&[(Some(0), None)], &[(0, 0)])),
        ["segment 0 next none 0"]
    );
    // a missing next is not the last
    let missing = [(Some(0), None), (Some(0), Some(0))];
    assert_eq!(
        listed(&axis(&missing, &[(0, 1)])),
        ["segment 0 next none 1"]
    );
    // a loop that stops short of a segment of the edge; next of the one left out is beyond, and becomes the ring's
    let short = [(Some(0), Some(1)), (Some(0), Some(0)), (Some(0), Some(9))];
    assert_eq!(
        listed(&axis(&short, &[(0, 1)])),
        [
            "segment 1 next 0 2",
            "segment 2 next 9 0",
            "edge 0 last 1 2"
        ]
    );
    // a walk that never ends: the last is not on the loop
    let endless = [(Some(0), Some(1)), (Some(0), Some(0)), (Some(0), Some(2))];
    assert_eq!(
        listed(&axis(&endless, &[(0, 2)])),
        ["segment 1 next 0 2", "segment 2 next 2 0"]
    );
    // a loop through a segment without an edge, which keeps its next
    let strange = [(Some(0), Some(1)), (None, Some(2)), (Some(0), Some(0))];
    assert_eq!(listed(&axis(&strange, &[(0, 2)])), ["segment 0 next 1 2"]);
    // a last in the middle of the loop; fields that get the value they had are not listed
    let middle = [(Some(0), Some(1)), (Some(0), Some(2)), (Some(0), Some(0))];
    assert_eq!(listed(&axis(&middle, &[(0, 1)])), ["edge 0 last 1 2"]);
    // a first beyond the list
    assert_eq!(
        listed(&axis(&[(Some(0), Some(0))], &[(600, 0)])),
        ["edge 0 first 600 0"]
    );
    // by the given edge indices, not by where the walk went: 2 left the ring for edge 1
    let moved = [(Some(0), Some(2)), (Some(0), Some(0)), (Some(1), Some(1))];
    assert_eq!(
        listed(&axis(&moved, &[(0, 1), (2, 2)])),
        ["segment 0 next 2 1", "segment 2 next 1 2"]
    );
    // two edges with exchanged ends: both are broken
    let two = [(Some(0), Some(0)), (Some(1), Some(1))];
    assert_eq!(
        listed(&axis(&two, &[(1, 1), (0, 0)])),
        [
            "edge 0 first 1 0",
            "edge 0 last 1 0",
            "edge 1 first 0 1",
            "edge 1 last 0 1"
        ]
    );
}

#[test]
fn links_of_removed_records_become_none() {
    let mut given = axis(
        &[(Some(0), Some(0)), (None, Some(2)), (None, Some(65_535))],
        &[(0, 0)],
    );
    given.0.items[0].link_ix = Some(3);
    given.0.items[0].serif_ix = Some(2);
    given.0.items[1].link_ix = Some(1);
    given.0.items[1].serif_ix = Some(65_535);
    given.1.items[0].link_ix = Some(0);
    given.1.items[0].serif_ix = Some(1);
    assert_eq!(
        listed(&given),
        [
            "segment 0 link 3 none",
            "segment 1 serif 65535 none",
            "segment 2 next 65535 none",
            "edge 0 serif 1 none"
        ]
    );
    // an edge's link is held against the edges, a segment's against the segments
    given.1.items[0].link_ix = Some(2);
    assert_eq!(listed(&given)[3], "edge 0 link 2 none");
}

#[test]
fn the_list_is_full_at_2_048() {
    let mut segments = vec![on(None, None); 512];
    for (ix, segment) in segments.iter_mut().enumerate() {
        segment.edge_ix = Some((ix % 128) as u16);
        (segment.link_ix, segment.serif_ix) = (Some(512), Some(65_535));
        segment.edge_next_ix = Some(ix as u16);
    }
    let mut edges = vec![ring(512, 512); 128];
    for edge in &mut edges {
        (edge.link_ix, edge.serif_ix) = (Some(128), Some(200));
    }
    let given = (Table::of(segments), Table::of(edges));
    assert_eq!(listed(&given).len(), 2_048);
    let answer = answer(Job::Mend(given.0, given.1)).values;
    assert_eq!(answer.len(), 19_460, "the longest answer");
}

/// What mending answers to a small axis with one change; a refusal writes nothing.
fn changed(change: impl Fn(&mut Table<Segment>, &mut Table<Edge>)) -> i32 {
    let mut given = axis(
        &[(Some(0), Some(1)), (Some(0), Some(0)), (Some(1), Some(2))],
        &[(0, 1), (2, 2)],
    );
    change(&mut given.0, &mut given.1);
    let before = given.clone();
    match mend(&mut given.0, &mut given.1) {
        Ok(_) => 0,
        Err(Refusal(number)) => {
            assert_eq!(given, before);
            number
        }
    }
}

/// A way to be refused.
type Fault = fn(&mut Table<Segment>, &mut Table<Edge>);

#[test]
fn mending_refuses() {
    assert_eq!(changed(|_, _| {}), 0);
    assert_eq!(changed(|s, _| s.count = 513), 1);
    assert_eq!(changed(|_, e| e.count = 129), 1);
    assert_eq!(changed(|s, _| s.items[0].score = 65_536), 4);
    assert_eq!(changed(|s, _| s.items[2].len = -1), 4);
    assert_eq!(changed(|_, e| e.items[1].opos = i32::MAX), 4);
    assert_eq!(changed(|_, e| e.items[0].pos = -16_777_217), 4);
    let fitted = |fitted| changed(|_, e| e.items[0].blue_edge = Some(ScaledWidth { fitted }));
    assert_eq!((fitted(16_383), fitted(i32::MIN)), (0, 4));
    // an edge index beyond the count, not beyond 128; links are what is mended
    assert_eq!(changed(|s, _| s.items[1].edge_ix = Some(2)), 3);
    assert_eq!(changed(|s, _| s.items[1].link_ix = Some(3)), 0);
    assert_eq!(changed(|_, e| e.items[1].last_ix = 3), 0);
    // an edge that no segment names; on an axis without segments too, and not where there are no edges
    assert_eq!(changed(|s, _| s.items[2].edge_ix = None), 7);
    assert_eq!(changed(|s, _| *s = Table::of(Vec::new())), 7);
    assert_eq!(
        changed(|s, e| (*s, *e) = (Table::of(Vec::new()), Table::of(Vec::new()))),
        0
    );
    // 1, 4, 3, 7
    let faults: [Fault; 4] = [
        |_, e| e.count = 129,
        |s, _| s.items[0].score = -1,
        |s, _| s.items[0].edge_ix = Some(2),
        |s, _| s.items[2].edge_ix = None,
    ];
    for set in 1..1 << faults.len() {
        let all = (0..faults.len()).filter(|ix| set >> ix & 1 == 1);
        let answer = changed(|s, e| all.clone().for_each(|ix| faults[ix](s, e)));
        let first = all.clone().next().expect("the set has a fault");
        assert_eq!(answer, [1, 4, 3, 7][first]);
    }
}

#[test]
fn every_small_axis() {
    let (mut mended, mut refused) = (0, [0; 8]);
    let done = small_axes::rings(&mut |segments, edges| {
        let given = (Table::of(segments), Table::of(edges));
        let mut axis = given.clone();
        match mend(&mut axis.0, &mut axis.1) {
            Ok(altered) => {
                held_to_claims(&given, &axis, &altered);
                mended += 1;
            }
            Err(Refusal(number)) => {
                assert_eq!(given, axis);
                refused[number as usize] += 1;
            }
        }
        Ok::<(), Infallible>(())
    });
    assert_eq!(done, Ok(()));
    assert_eq!(mended, 401_181);
    assert_eq!(refused, [0, 0, 0, 1_232_778, 0, 0, 0, 491_374]);
}

/// Jobs of mending that were made up in every profile.
fn made_up() -> Vec<Axis> {
    let mut random = Random::new(107);
    let mut axes = Vec::new();
    for (_, profile) in PROFILES {
        for _ in 0..4_000 {
            if let Some(Job::Mend(segments, edges)) = job_of(&line(121, profile, &mut random)) {
                axes.push((segments, edges));
            }
        }
    }
    axes
}

#[test]
fn made_up_axes() {
    let (mut sound, mut mended, mut full, mut longest) = (0, 0, 0, 0);
    for given in made_up() {
        let mut axis = given.clone();
        if let Ok(altered) = mend(&mut axis.0, &mut axis.1) {
            held_to_claims(&given, &axis, &altered);
            sound += usize::from(altered.is_empty());
            mended += usize::from(!altered.is_empty());
            full += usize::from(given.0.count == SEGMENTS && given.1.count == EDGES);
            longest = longest.max(altered.len());
        }
    }
    assert!(sound > 2_000 && mended > 5_000 && full > 4 && longest == 2_048);
}

/// A wrong way to mend.
#[derive(Copy, Clone, PartialEq, Debug)]
enum Slip {
    Right,
    /// A next in its list of a segment without an edge is cleared.
    ClearsEdgeless,
    /// Sound rings are made anew too.
    RebuildsAll,
    /// A missing next is taken for the last.
    MissingIsLast,
    /// The last need not lead back.
    LeadsAnywhere,
    /// The ring may leave segments out.
    LeavesOut,
    /// The ring may meet others.
    MeetsOthers,
    /// The new ring is that of the walk, as far as it went.
    ByTheWalk,
    /// In falling order.
    Falling,
    /// The last leads nowhere, or the first or the last is as it was.
    LeadsNowhere,
    ForgetsFirst,
    ForgetsLast,
    /// An edge's link is held against the segments, or an index at the count is in the list.
    OtherList,
    AtTheCount,
    /// Every field is listed, or the edges in front, or the old and the new value exchanged.
    ListsEqual,
    EdgesFirst,
    Exchanged,
    /// 3 in front of 4, 7 in front of 3, 3 for an edge without segments, 3 for links.
    ThreeFirst,
    SevenFirst,
    ThreeForEmpty,
    ThreeForLinks,
}

/// Table, index, field, old and new value.
type Entry = (u8, usize, u8, i32, i32);

/// Mends with a slip, in a way of its own.
fn slipped(slip: Slip, axis: &mut Axis) -> Answer<Vec<Entry>> {
    use Slip::*;
    let (n, m) = (axis.0.count, axis.1.count);
    let is = |other: Slip| slip == other;
    let fits = n <= SEGMENTS && m <= EDGES;
    let numbers = refusals::mend(&axis.0, &axis.1) != Err(Refusal(4));
    let named = |s: &Segment| s.edge_ix.is_none_or(|ix| usize::from(ix) < m);
    let named = axis.0.items.iter().all(named);
    let whole = |k: usize| axis.0.items.iter().any(|s| s.edge_ix == Some(k as u16));
    let whole = (0..m.min(EDGES)).all(whole);
    let linked = |ix: Option<u16>, count| ix.is_none_or(|ix| usize::from(ix) < count);
    let links = axis.0.items.iter().all(|s| linked(s.link_ix, n));
    let three = if is(ThreeForLinks) {
        named && links
    } else {
        named
    };
    let seven = if is(ThreeForEmpty) { 3 } else { 7 };
    let tests = match slip {
        ThreeFirst => [(1, fits), (3, three), (4, numbers), (7, whole)],
        SevenFirst => [(1, fits), (4, numbers), (7, whole), (3, three)],
        _ => [(1, fits), (4, numbers), (3, three), (seven, whole)],
    };
    if let Some((number, _)) = tests.iter().find(|(_, holds)| !holds) {
        return Err(Refusal(*number));
    }
    let (old, old_edges) = (axis.0.items.clone(), axis.1.items.clone());
    let end = |count: usize| if is(AtTheCount) { count + 1 } else { count };
    let kept = |ix: Option<u16>, count: usize| ix.filter(|ix| usize::from(*ix) < end(count));
    for s in &mut axis.0.items {
        s.link_ix = kept(s.link_ix, n);
        s.serif_ix = kept(s.serif_ix, n);
        if s.edge_ix.is_none() {
            s.edge_next_ix = kept(s.edge_next_ix, n).filter(|_| !is(ClearsEdgeless));
        }
    }
    for k in 0..m {
        let edge = &mut axis.1.items[k];
        let own = if is(OtherList) { n } else { m };
        edge.link_ix = kept(edge.link_ix, own);
        edge.serif_ix = kept(edge.serif_ix, m);
        let (members, walk, closes) = walked(slip, &old, edge, k);
        let sound = match slip {
            LeavesOut => closes && walk.iter().all(|ix| members.contains(ix)),
            MeetsOthers => closes && members.iter().all(|ix| walk.contains(ix)),
            _ => {
                closes && walk.len() == members.len() && walk.iter().all(|ix| members.contains(ix))
            }
        };
        if sound && !is(RebuildsAll) {
            continue;
        }
        let mut ring = members;
        match slip {
            Falling => ring.reverse(),
            ByTheWalk => ring.sort_by_key(|ix| walk.iter().position(|at| at == ix).unwrap_or(n)),
            _ => {}
        }
        for pair in ring.windows(2) {
            axis.0.items[pair[0]].edge_next_ix = Some(pair[1] as u16);
        }
        let (first, last) = (ring[0], ring[ring.len() - 1]);
        axis.0.items[last].edge_next_ix = Some(first as u16).filter(|_| !is(LeadsNowhere));
        if !is(ForgetsFirst) {
            edge.first_ix = first as u16;
        }
        if !is(ForgetsLast) {
            edge.last_ix = last as u16;
        }
    }
    let word = |ix: Option<u16>| ix.map_or(-1, i32::from);
    let mut listed = Vec::new();
    for (ix, (a, b)) in old.iter().zip(&axis.0.items).enumerate() {
        listed.push((0, ix, 0, word(a.link_ix), word(b.link_ix)));
        listed.push((0, ix, 1, word(a.serif_ix), word(b.serif_ix)));
        listed.push((0, ix, 2, word(a.edge_next_ix), word(b.edge_next_ix)));
    }
    for (ix, (a, b)) in old_edges.iter().zip(&axis.1.items).enumerate() {
        listed.push((1, ix, 0, word(a.link_ix), word(b.link_ix)));
        listed.push((1, ix, 1, word(a.serif_ix), word(b.serif_ix)));
        listed.push((1, ix, 3, a.first_ix.into(), b.first_ix.into()));
        listed.push((1, ix, 4, a.last_ix.into(), b.last_ix.into()));
    }
    listed.retain(|(.., old, new)| is(ListsEqual) || old != new);
    match slip {
        EdgesFirst => listed.sort_by_key(|entry| 1 - entry.0),
        Exchanged => {
            for (.., old, new) in &mut listed {
                std::mem::swap(old, new);
            }
        }
        _ => {}
    }
    Ok(listed)
}

/// The segments of an edge, those that a walk along its ring meets, and whether it ends at the last, which leads back.
fn walked(slip: Slip, old: &[Segment], edge: &Edge, k: usize) -> (Vec<usize>, Vec<usize>, bool) {
    let of_edge = |ix: &usize| old[*ix].edge_ix == Some(k as u16);
    let members: Vec<usize> = (0..old.len()).filter(of_edge).collect();
    let (first, last) = (usize::from(edge.first_ix), usize::from(edge.last_ix));
    let mut walk = vec![first];
    while walk.len() <= old.len() {
        let at = walk[walk.len() - 1];
        if at >= old.len() {
            return (members, walk, false);
        }
        let next = old[at].edge_next_ix.map(usize::from);
        if at == last {
            let back = next == Some(first) || slip == Slip::LeadsAnywhere;
            return (members, walk, back);
        }
        match next {
            Some(next) => walk.push(next),
            None if slip == Slip::MissingIsLast => walk.push(last),
            None => return (members, walk, false),
        }
    }
    (members, walk, false)
}

/// Whether some made-up axis is mended otherwise with a slip.
fn shows(slip: Slip, axes: &[Axis]) -> bool {
    axes.iter().any(|given| {
        let (mut right, mut wrong) = (given.clone(), given.clone());
        let word = |ix: Option<u16>| ix.map_or(-1, i32::from);
        let listed = mend(&mut right.0, &mut right.1).map(|altered| {
            let entry = |a: &Alteration| {
                (
                    a.side as u8,
                    a.index,
                    a.field as u8,
                    word(a.old),
                    word(a.new),
                )
            };
            altered.iter().map(entry).collect::<Vec<_>>()
        });
        (slipped(slip, &mut wrong), &wrong) != (listed, &right)
    })
}

#[test]
fn slips_of_mending() {
    use Slip::*;
    let axes = made_up();
    assert!(!shows(Right, &axes));
    for slip in [
        ClearsEdgeless,
        RebuildsAll,
        MissingIsLast,
        LeadsAnywhere,
        LeavesOut,
        MeetsOthers,
        ByTheWalk,
        Falling,
        LeadsNowhere,
        ForgetsFirst,
        ForgetsLast,
        OtherList,
        AtTheCount,
        ListsEqual,
        EdgesFirst,
        Exchanged,
        ThreeFirst,
        SevenFirst,
        ThreeForEmpty,
        ThreeForLinks,
    ] {
        assert!(shows(slip, &axes), "{slip:?}");
    }
}
