//! Request #113: worked axes, kept sets of every table of four segments, what is claimed of every small axis and of made-up ones, and slips that made-up jobs show.

use super::{job_of, segment};
use crate::{
    answer::answer,
    generate::{line, small_axes, Random, PROFILES},
    job::{Edge, Job, Segment, Table, TopoFlags},
    limits::{EDGES, MEASURE, SEGMENTS},
    mend::{is_sound, mend},
    pack::{kept, pack},
    refusals::{Answer, Refusal},
};
use std::convert::Infallible;

/// Both tables of an axis.
type Axis = (Table<Segment>, Table<Edge>);

/// A segment by its edge, next, link and serif, at a position of its own.
fn named(
    pos: i16,
    edge_ix: Option<u16>,
    edge_next_ix: Option<u16>,
    link_ix: Option<u16>,
    serif_ix: Option<u16>,
) -> Segment {
    Segment {
        edge_ix,
        edge_next_ix,
        link_ix,
        serif_ix,
        ..segment(pos)
    }
}

/// An edge with its first and last segment.
fn ring(first_ix: u16, last_ix: u16) -> Edge {
    Edge {
        first_ix,
        last_ix,
        ..Edge::default()
    }
}

/// Four segments: 1 has the edge, links to 3, whose serif is 2; 0 links to 1.
fn four() -> Axis {
    let segments = vec![
        named(10, None, None, Some(1), None),
        named(11, Some(0), Some(1), Some(3), None),
        named(12, None, Some(0), None, None),
        named(13, None, None, None, Some(2)),
    ];
    (Table::of(segments), Table::of(vec![ring(1, 1)]))
}

/// What is left of an axis that is accepted, and the places freed, held to the claims.
fn packed(given: &Axis) -> (Axis, Vec<Segment>) {
    let mut axis = given.clone();
    let freed = pack(&mut axis.0, &mut axis.1).expect("the axis is accepted");
    held_to_claims(given, &axis, &freed);
    (axis, freed)
}

/// The segments of a ring, in its order.
fn around((segments, edges): &Axis, edge: usize) -> Vec<u16> {
    let mut ring = vec![edges.items[edge].first_ix];
    while ring[ring.len() - 1] != edges.items[edge].last_ix {
        let at = usize::from(ring[ring.len() - 1]);
        ring.push(segments.items[at].edge_next_ix.expect("the ring is sound"));
    }
    ring
}

/// A segment but for its indices into its own list.
fn bare(segment: &Segment) -> Segment {
    Segment {
        link_ix: None,
        serif_ix: None,
        edge_next_ix: None,
        ..*segment
    }
}

/// What the request claims of an axis that was made smaller.
fn held_to_claims(given: &Axis, axis: &Axis, freed: &[Segment]) {
    let old: Vec<u16> = kept(&given.0.items).into_iter().collect();
    let was = |new: u16| old[usize::from(new)];
    // the kept ones in their order, but for indices as they were; the count has left the freed places, which are empty
    assert_eq!(axis.0.count, old.len());
    assert_eq!(axis.0.count + freed.len(), given.0.count);
    assert!(freed.iter().all(|place| *place == Segment::default()));
    for (segment, old) in axis.0.items.iter().zip(&old) {
        let old = &given.0.items[usize::from(*old)];
        assert_eq!(bare(segment), bare(old));
        assert_eq!(segment.link_ix.map(was), old.link_ix);
        assert_eq!(segment.serif_ix.map(was), old.serif_ix);
        let next = old.edge_next_ix.filter(|_| old.edge_ix.is_some());
        assert_eq!(segment.edge_next_ix.map(was), next);
    }
    // every edge shows the same segments in the same ring order, and nothing else of it is changed
    assert_eq!(axis.1.count, given.1.count);
    for (ix, (edge, old)) in axis.1.items.iter().zip(&given.1.items).enumerate() {
        let ring = around(axis, ix).into_iter().map(was).collect::<Vec<_>>();
        assert_eq!(ring, around(given, ix));
        assert!(is_sound(&axis.0.items, &axis.1.items, ix));
        let Edge {
            first_ix, last_ix, ..
        } = *old;
        assert_eq!(
            Edge {
                first_ix,
                last_ix,
                ..*edge
            },
            *old
        );
    }
    // done twice, nothing more changes
    let mut twice = axis.clone();
    assert_eq!(pack(&mut twice.0, &mut twice.1), Ok(Vec::new()));
    assert_eq!(twice, *axis);
}

#[test]
fn segments_that_serve_no_edge_are_dropped() {
    let (axis, freed) = packed(&four());
    // 0 is dropped though it links to one that is kept; 2 is reached against the order, and loses its next
    let left = vec![
        named(11, Some(0), Some(0), Some(2), None),
        named(12, None, None, None, None),
        named(13, None, None, None, Some(1)),
    ];
    assert_eq!(axis, (Table::of(left), Table::of(vec![ring(0, 0)])));
    assert_eq!(freed, [Segment::default()]);
}

#[test]
fn freed_places_are_answered_empty() {
    let (segments, edges) = four();
    let answer = answer(Job::Pack(segments, edges)).values;
    assert_eq!(answer[..2], [0, 3]);
    let empty = [1, 0, 0, 0, 0, 0, 0, 0, 0, 0, -1, -1, 0, 0, -1, -1];
    assert_eq!(answer[answer.len() - empty.len()..], empty);
    // beside a refusal no place is freed, and the segments are as they came
    let (mut segments, edges) = four();
    segments.items[1].edge_next_ix = None;
    let answer = crate::answer::answer(Job::Pack(segments, edges)).values;
    assert_eq!(
        (answer[..2].to_vec(), answer.last()),
        (vec![7, 4], Some(&0))
    );
}

#[test]
fn what_is_kept() {
    // nothing without an edge, whatever it links to
    let loose = vec![named(0, None, Some(0), Some(0), Some(1)); 2];
    let (axis, freed) = packed(&(Table::of(loose), Table::of(Vec::new())));
    assert_eq!((axis.0.count, freed.len()), (0, 2));
    // all where all have an edge: nothing changes
    let mut all = four();
    for segment in &mut all.0.items {
        segment.edge_ix = Some(0);
    }
    for (ix, next) in [(0, 2), (2, 1), (1, 3), (3, 0)] {
        all.0.items[ix].edge_next_ix = Some(next);
    }
    all.1.items[0] = ring(2, 0);
    assert_eq!(packed(&all), (all.clone(), Vec::new()));
    // a chain of 512, to lower indices and to higher ones; a number outside its limits is carried
    for falling in [true, false] {
        let place = |ix: u16| if falling { 511 - ix } else { ix };
        let mut segments = vec![segment(0); 512];
        for ix in 0..511 {
            segments[usize::from(place(ix))].link_ix = Some(place(ix + 1));
        }
        let first = place(0);
        segments[usize::from(first)].edge_ix = Some(0);
        segments[usize::from(first)].edge_next_ix = Some(first);
        segments[300].score = i32::MIN;
        let mut edge = ring(first, first);
        edge.pos = i32::MAX;
        edge.flags = TopoFlags::ROUND;
        let given = (Table::of(segments), Table::of(vec![edge]));
        assert_eq!(packed(&given), (given.clone(), Vec::new()));
        // without the link in its middle half of it is left
        let mut cut = given;
        cut.0.items[usize::from(place(255))].link_ix = None;
        let (axis, freed) = packed(&cut);
        assert_eq!((axis.0.count, freed.len()), (256, 256));
    }
}

#[test]
fn kept_sets_of_every_table_of_four() {
    const COUNT: usize = 4;
    let index = |digit: usize| digit.checked_sub(1).map(|ix| ix as u16);
    let mut segments = [Segment::default(); COUNT];
    for code in 0..25usize.pow(COUNT as u32) {
        let mut names = [0; COUNT];
        for (ix, segment) in segments.iter_mut().enumerate() {
            let digit = code / 25usize.pow(ix as u32) % 25;
            (segment.link_ix, segment.serif_ix) = (index(digit % 5), index(digit / 5));
            let named = [segment.link_ix, segment.serif_ix];
            names[ix] = named.iter().flatten().fold(0, |set, ix| set | 1 << ix);
        }
        for on_edges in 0..1 << COUNT {
            for (ix, segment) in segments.iter_mut().enumerate() {
                segment.edge_ix = (on_edges >> ix & 1 == 1).then_some(0);
            }
            // the least of all sets that have these, and with a member whatever it names
            let has = |set: usize, ix: usize| set >> ix & 1 == 1;
            let closed = |set: &usize| {
                set & on_edges == on_edges
                    && (0..COUNT).all(|ix| !has(*set, ix) || names[ix] & !set == 0)
            };
            let least = (0..1 << COUNT)
                .filter(closed)
                .fold(15, |least, set| least & set);
            let found = kept(&segments).iter().fold(0, |set, ix| set | 1 << ix);
            assert_eq!(found, least, "{segments:?}");
        }
    }
}

/// What making smaller answers to the axis of four with one change; a refusal writes nothing.
fn changed(change: impl Fn(&mut Table<Segment>, &mut Table<Edge>)) -> i32 {
    let mut given = four();
    change(&mut given.0, &mut given.1);
    let before = given.clone();
    match pack(&mut given.0, &mut given.1) {
        Ok(_) => 0,
        Err(Refusal(number)) => {
            assert_eq!(given, before);
            number
        }
    }
}

#[test]
fn packing_refuses() {
    assert_eq!(changed(|_, _| {}), 0);
    assert_eq!(changed(|s, _| s.count = 513), 1);
    assert_eq!(changed(|_, e| e.count = 129), 1);
    // every index, those of a segment that is dropped too
    assert_eq!(changed(|s, _| s.items[0].link_ix = Some(4)), 3);
    assert_eq!(changed(|s, _| s.items[0].serif_ix = Some(65_535)), 3);
    assert_eq!(changed(|s, _| s.items[0].edge_next_ix = Some(4)), 3);
    assert_eq!(changed(|s, _| s.items[0].edge_ix = Some(1)), 3);
    assert_eq!(changed(|_, e| e.items[0].link_ix = Some(1)), 3);
    assert_eq!(changed(|_, e| e.items[0].serif_ix = Some(1)), 3);
    assert_eq!(changed(|_, e| e.items[0].first_ix = 4), 3);
    assert_eq!(changed(|_, e| e.items[0].last_ix = 4), 3);
    // no segments: the edge's first is beyond
    assert_eq!(changed(|s, _| *s = Table::of(Vec::new())), 3);
    // numbers are not tested
    assert_eq!(changed(|s, _| s.items[1].score = -1), 0);
    assert_eq!(changed(|_, e| e.items[0].opos = i32::MIN), 0);
    // rings that are not sound: no next, another's next, a stranger, one left out, no segments
    assert_eq!(changed(|s, _| s.items[1].edge_next_ix = None), 7);
    assert_eq!(changed(|s, _| s.items[1].edge_next_ix = Some(2)), 7);
    assert_eq!(changed(|_, e| e.items[0].first_ix = 0), 7);
    assert_eq!(changed(|_, e| e.items[0].last_ix = 2), 7);
    assert_eq!(changed(|s, _| s.items[3].edge_ix = Some(0)), 7);
    assert_eq!(changed(|s, _| s.items[1].edge_ix = None), 7);
    // 1, 3, 7
    let both = |s: &mut Table<Segment>| {
        s.items[0].link_ix = Some(9);
        s.items[1].edge_next_ix = None;
    };
    assert_eq!(changed(|s, _| both(s)), 3);
    assert_eq!(
        changed(|s, e| {
            both(s);
            e.count = 129;
        }),
        1
    );
}

#[test]
fn every_small_axis() {
    let (mut done, mut refused) = (0, [0; 8]);
    for part in 0..small_axes::PARTS {
        let handed = small_axes::jobs(true, part, &mut |job| {
            let Job::Pack(segments, edges) = job else {
                panic!("a job of another call");
            };
            let given = (segments.clone(), edges.clone());
            let mut axis = given.clone();
            match pack(&mut axis.0, &mut axis.1) {
                Ok(freed) => {
                    held_to_claims(&given, &axis, &freed);
                    done += 1;
                }
                Err(Refusal(number)) => {
                    assert_eq!(given, axis);
                    refused[number as usize] += 1;
                }
            }
            Ok::<(), Infallible>(())
        });
        assert_eq!(handed, Ok(()));
    }
    assert_eq!(done, 138_277);
    assert_eq!(refused, [0, 0, 0, 1_979_231, 0, 0, 0, 145_901]);
}

/// Jobs that were made up in every profile.
fn made_up() -> Vec<Axis> {
    let mut random = Random::new(113);
    let mut axes = Vec::new();
    for (_, profile) in PROFILES {
        for _ in 0..4_000 {
            if let Some(Job::Pack(segments, edges)) = job_of(&line(123, profile, &mut random)) {
                axes.push((segments, edges));
            }
        }
    }
    axes
}

#[test]
fn made_up_axes() {
    let (mut done, mut smaller, mut loose, mut mended) = (0, 0, 0, 0);
    for given in made_up() {
        let mut axis = given.clone();
        if let Ok(freed) = pack(&mut axis.0, &mut axis.1) {
            held_to_claims(&given, &axis, &freed);
            done += 1;
            smaller += usize::from(!freed.is_empty());
            loose += usize::from(axis.0.items.iter().any(|s| s.edge_ix.is_none()));
        } else if mend(&mut axis.0, &mut axis.1).is_ok() {
            // what mending hands on is accepted
            packed(&axis);
            mended += 1;
        }
    }
    assert!(done > 8_000 && smaller > 3_000 && loose > 3_000 && mended > 1_000);
}

/// A wrong way to make an axis smaller.
#[derive(Copy, Clone, PartialEq, Debug)]
enum Slip {
    Right,
    /// One sweep in rising order, links alone, or serifs alone are followed.
    OneSweep,
    LinksAlone,
    SerifsAlone,
    /// Nexts are followed too, or links both ways.
    FollowsNext,
    BothWays,
    /// Only those with an edge are kept, or all are.
    EdgesAlone,
    KeepsAll,
    /// A kept segment without an edge keeps its next where that is kept.
    KeepsNext,
    /// First, last or next are as they were.
    ForgetsFirst,
    ForgetsLast,
    ForgetsNext,
    /// The freed places hold what stood there.
    LeavesFreed,
    /// 7 in front of 3, first and last not held against the list, 4 tested.
    SevenFirst,
    NoEnds,
    TestsNumbers,
}

/// Makes an axis smaller with a slip, in a way of its own.
fn slipped(slip: Slip, axis: &mut Axis) -> Answer<Vec<Segment>> {
    use Slip::*;
    let (n, m) = (axis.0.count, axis.1.count);
    if n > SEGMENTS || m > EDGES {
        return Err(Refusal(1));
    }
    let below = |ix: Option<u16>, count: usize| ix.is_none_or(|ix| usize::from(ix) < count);
    let (old, edges) = (axis.0.items.clone(), axis.1.items.clone());
    let indices = old.iter().all(|s| {
        below(s.link_ix, n)
            && below(s.serif_ix, n)
            && below(s.edge_next_ix, n)
            && below(s.edge_ix, m)
    }) && edges.iter().all(|e| {
        let ends = below(Some(e.first_ix), n) && below(Some(e.last_ix), n);
        below(e.link_ix, m) && below(e.serif_ix, m) && (ends || slip == NoEnds)
    });
    let sound = (0..m).all(|ix| is_sound(&old, &edges, ix));
    let few = |s: &Segment| MEASURE.contains(&s.score);
    let tests = match slip {
        SevenFirst => [(7, sound), (3, indices), (4, true)],
        TestsNumbers => [(3, indices), (7, sound), (4, old.iter().all(few))],
        _ => [(3, indices), (7, sound), (4, true)],
    };
    if let Some((number, _)) = tests.iter().find(|(_, holds)| !holds) {
        return Err(Refusal(*number));
    }
    let mut kept: Vec<bool> = old
        .iter()
        .map(|s| s.edge_ix.is_some() || slip == KeepsAll)
        .collect();
    let sweeps = match slip {
        EdgesAlone => 0,
        OneSweep => 1,
        _ => n,
    };
    for _ in 0..sweeps {
        for (ix, s) in old.iter().enumerate() {
            let named = [
                s.link_ix.filter(|_| slip != SerifsAlone),
                s.serif_ix.filter(|_| slip != LinksAlone),
                s.edge_next_ix.filter(|_| slip == FollowsNext),
            ];
            for to in named.iter().flatten() {
                kept[usize::from(*to)] |= kept[ix];
                kept[ix] |= kept[usize::from(*to)] && slip == BothWays;
            }
        }
    }
    let new = |ix: Option<u16>| {
        let below = |ix: usize| kept[..ix].iter().filter(|kept| **kept).count() as u16;
        ix.map(|ix| below(ix.into()))
    };
    let chosen = (0..n).filter(|ix| kept[*ix]).map(|ix| {
        let s = &old[ix];
        let stays = s.edge_next_ix.filter(|to| kept[usize::from(*to)]);
        let next = match slip {
            ForgetsNext => s.edge_next_ix.filter(|_| s.edge_ix.is_some()),
            KeepsNext => new(stays),
            _ => new(stays.filter(|_| s.edge_ix.is_some())),
        };
        Segment {
            link_ix: new(s.link_ix),
            serif_ix: new(s.serif_ix),
            edge_next_ix: next,
            ..*s
        }
    });
    axis.0 = Table::of(chosen.collect());
    for edge in &mut axis.1.items {
        if slip != ForgetsFirst {
            edge.first_ix = new(Some(edge.first_ix)).unwrap_or(0);
        }
        if slip != ForgetsLast {
            edge.last_ix = new(Some(edge.last_ix)).unwrap_or(0);
        }
    }
    Ok(match slip {
        LeavesFreed => old[axis.0.count..].to_vec(),
        _ => vec![Segment::default(); n - axis.0.count],
    })
}

/// Whether some made-up axis is made smaller otherwise with a slip.
fn shows(slip: Slip, axes: &[Axis]) -> bool {
    axes.iter().any(|given| {
        let (mut right, mut wrong) = (given.clone(), given.clone());
        let freed = pack(&mut right.0, &mut right.1);
        (slipped(slip, &mut wrong), &wrong) != (freed, &right)
    })
}

#[test]
fn slips_of_packing() {
    use Slip::*;
    let axes = made_up();
    assert!(!shows(Right, &axes));
    for slip in [
        OneSweep,
        LinksAlone,
        SerifsAlone,
        FollowsNext,
        BothWays,
        EdgesAlone,
        KeepsAll,
        KeepsNext,
        ForgetsFirst,
        ForgetsLast,
        ForgetsNext,
        LeavesFreed,
        SevenFirst,
        NoEnds,
        TestsNumbers,
    ] {
        assert!(shows(slip, &axes), "{slip:?}");
    }
}
