//! Request #114: the old order is refused by 10, and saved axes are turned over; with slips that made-up jobs show.

use super::{edge, keep, linked, segment};
use crate::{
    answer::answer,
    calls,
    decode::decode,
    generate::{line, Random, PROFILES},
    job::{
        Building, Dimension, Direction, Edge, Job, ScaledWidth, ScriptGroup, Segment, Stems, Table,
        TopoFlags, WidthRule,
    },
    refusals::Refusal,
    text,
    turn::turn_over,
};

/// An axis of three edges and four segments.
fn axis() -> (Table<Segment>, Table<Edge>) {
    let on = |edge_ix, edge_next_ix, link_ix| Segment {
        edge_ix,
        edge_next_ix,
        link_ix,
        serif_ix: Some(3),
        ..segment(0)
    };
    let segments = vec![
        on(Some(0), Some(2), Some(1)),
        on(Some(1), Some(1), Some(0)),
        on(Some(0), Some(0), None),
        on(None, None, None),
    ];
    let ringed = |edge: Edge, first_ix, last_ix| Edge {
        first_ix,
        last_ix,
        ..edge
    };
    let mut edges = vec![
        ringed(linked(200, 1), 0, 2),
        ringed(linked(100, 0), 1, 1),
        ringed(edge(-50), 3, 3),
    ];
    edges[1].blue_edge = Some(ScaledWidth { fitted: 64 });
    edges[2].serif_ix = Some(0);
    edges[2].flags = TopoFlags::SERIF;
    (Table::of(segments), Table::of(edges))
}

#[test]
fn an_axis_is_turned_over() {
    let (given, old) = axis();
    let (mut segments, mut edges) = axis();
    assert_eq!(turn_over(&mut segments, &mut edges), Ok(()));
    let [a, b, c] = edges.items[..] else {
        panic!("three edges stay three");
    };
    let renumbered = |edge: Edge, link_ix, serif_ix| Edge {
        link_ix,
        serif_ix,
        ..edge
    };
    assert_eq!(a, renumbered(old.items[2], None, Some(2)));
    assert_eq!(b, renumbered(old.items[1], Some(2), None));
    assert_eq!(c, renumbered(old.items[0], Some(1), None));
    for ((new, old), edge_ix) in (segments.items.iter().zip(&given.items)).zip([2, 1, 2, 0]) {
        let edge_ix = old.edge_ix.map(|_| edge_ix);
        assert_eq!(*new, Segment { edge_ix, ..*old });
    }
    assert_eq!(turn_over(&mut segments, &mut edges), Ok(()));
    assert_eq!((segments, edges), axis());
}

#[test]
fn an_axis_of_no_or_of_128_edges() {
    let mut none = (Table::of(vec![segment(3)]), Table::of(Vec::new()));
    let before = none.clone();
    assert_eq!(turn_over(&mut none.0, &mut none.1), Ok(()));
    assert_eq!(none, before);
    let mut segments = Table::of(vec![Segment {
        edge_ix: Some(0),
        ..segment(0)
    }]);
    let mut edges = Table::of((0..128).map(edge).collect());
    assert_eq!(turn_over(&mut segments, &mut edges), Ok(()));
    assert_eq!(segments.items[0].edge_ix, Some(127));
    assert_eq!((edges.items[0].pos, edges.items[127].pos), (127, 0));
    edges.count = 129;
    assert_eq!(turn_over(&mut segments, &mut edges), Err(Refusal(1)));
}

/// What turning answers to the axis with one change.
fn changed(change: impl Fn(&mut Table<Segment>, &mut Table<Edge>)) -> i32 {
    let (mut segments, mut edges) = axis();
    change(&mut segments, &mut edges);
    let before = (segments.clone(), edges.clone());
    let result = turn_over(&mut segments, &mut edges);
    if let Err(Refusal(number)) = result {
        assert_eq!((segments, edges), before, "a refusal writes nothing");
        return number;
    }
    0
}

#[test]
fn turning_refuses() {
    assert_eq!(changed(|_, _| {}), 0);
    assert_eq!(changed(|s, _| s.count = 513), 1);
    assert_eq!(changed(|s, _| s.items[0].link_ix = Some(4)), 3);
    assert_eq!(changed(|s, _| s.items[0].serif_ix = Some(4)), 3);
    assert_eq!(changed(|s, _| s.items[3].edge_next_ix = Some(4)), 3);
    assert_eq!(changed(|s, _| s.items[3].edge_ix = Some(3)), 3);
    assert_eq!(changed(|s, _| s.items[3].edge_ix = Some(2)), 0);
    assert_eq!(changed(|_, e| e.items[0].link_ix = Some(3)), 3);
    assert_eq!(changed(|_, e| e.items[0].serif_ix = Some(65_535)), 3);
    assert_eq!(changed(|_, e| e.items[1].first_ix = 4), 3);
    assert_eq!(changed(|_, e| e.items[1].last_ix = 4), 3);
    assert_eq!(changed(|s, _| *s = Table::of(Vec::new())), 3);
    assert_eq!(changed(|s, _| s.items[3].score = 65_536), 4);
    assert_eq!(changed(|s, _| s.items[3].len = -1), 4);
    assert_eq!(changed(|_, e| e.items[0].opos = 65_536), 4);
    assert_eq!(changed(|_, e| e.items[0].pos = -16_777_217), 4);
    let fitted = |fitted| changed(|_, e| e.items[0].blue_edge = Some(ScaledWidth { fitted }));
    assert_eq!((fitted(65_535), fitted(65_536)), (0, 4));
    assert_eq!(
        changed(|s, e| {
            s.items[3].score = -1;
            e.items[0].last_ix = 9;
        }),
        3
    );
    // rings as they were, broken ones too; points of segments are in no table of the axis
    assert_eq!(changed(|s, _| s.items[2].edge_next_ix = Some(2)), 0);
    assert_eq!(changed(|s, _| s.items[2].last_ix = 65_535), 0);
}

#[test]
fn the_old_order_is_refused_behind_1() {
    let mut edges = Table::of(vec![linked(0, 9)]);
    let mut many = Table {
        count: 129,
        items: vec![edge(0); 128],
    };
    for next in [false, true] {
        let adjusted = |edges: &mut Table<Edge>| calls::adjust_link(edges, 0, next, true);
        assert_eq!(adjusted(&mut many), Err(Refusal(1)));
        assert_eq!(adjusted(&mut edges), Err(Refusal(10)));
    }
    let groups = [ScriptGroup::Default, ScriptGroup::Cjk];
    let axes = [Dimension::Horizontal, Dimension::Vertical];
    for (group, dim) in groups.into_iter().flat_map(|g| axes.map(|d| (g, d))) {
        let given = Stems {
            dim,
            group,
            stem_adjust: false,
            top_to_bottom: true,
            anchor: Some(9),
            rule: WidthRule::Snap(vec![0]),
        };
        let fitted = |edges: &mut Table<Edge>| calls::align_stem_edges(edges, &given);
        assert_eq!(fitted(&mut many), Err(Refusal(1)));
        assert_eq!(fitted(&mut edges), Err(Refusal(10)));
        let given = Building {
            dim,
            major: Direction::Up,
            group,
            top_to_bottom: true,
            scale: 0,
            distance: 0,
            length: 0,
            width: 0,
        };
        let mut segments = Table::of(Vec::new());
        let mut built =
            |edges: &mut Table<Edge>| calls::compute_edges(&mut segments, edges, &given);
        assert_eq!(built(&mut many), Err(Refusal(1)));
        assert_eq!(built(&mut edges), Err(Refusal(10)));
    }
    let next = calls::align_linked_edge(&mut edges, &keep(), 0, 0);
    assert_eq!(next, Err(Refusal(3)), "the others know no order");
}

/// The edges of these segments built from top to bottom and turned over, and those of a fresh build: default group, vertical, major direction up.
fn turned_and_fresh(segments: &[Segment]) -> [Vec<Edge>; 2] {
    let given = Building {
        dim: Dimension::Vertical,
        major: Direction::Up,
        group: ScriptGroup::Default,
        top_to_bottom: true,
        scale: 65_536,
        distance: 3,
        length: 0,
        width: 0,
    };
    let mut axis = calls::cleared(segments, &given);
    calls::build(&mut axis, &calls::building_metrics(&given), &given);
    let mut turned = Table::of(axis.edges);
    assert_eq!(
        turn_over(&mut Table::of(axis.segments), &mut turned),
        Ok(())
    );
    let given = Building {
        top_to_bottom: false,
        ..given
    };
    let mut fresh = Table::of(Vec::new());
    let mut segments = Table::of(segments.to_vec());
    assert_eq!(
        calls::compute_edges(&mut segments, &mut fresh, &given),
        Ok(())
    );
    [turned.items, fresh.items]
}

#[test]
fn a_turned_table_need_not_equal_a_fresh_build() {
    let on = |pos, dir| Segment {
        dir,
        ..segment(pos)
    };
    // edges that share a position: the major direction is behind the other in both orders
    let [turned, fresh] = turned_and_fresh(&[on(0, Direction::Up), on(0, Direction::Down)]);
    let directions = |edges: &[Edge]| edges.iter().map(|edge| edge.dir).collect::<Vec<_>>();
    assert_eq!(directions(&turned), [Direction::Up, Direction::Down]);
    assert_eq!(directions(&fresh), [Direction::Down, Direction::Up]);
    // a segment without a direction joins the first edge that is near
    let loose = [
        on(0, Direction::Down),
        on(1, Direction::Up),
        on(-1, Direction::None),
    ];
    let [turned, fresh] = turned_and_fresh(&loose);
    let lasts = |edges: &[Edge]| edges.iter().map(|edge| edge.last_ix).collect::<Vec<_>>();
    assert_eq!((lasts(&turned), lasts(&fresh)), (vec![0, 2], vec![2, 1]));
    // the serif flag is kept on an edge that was visited before
    let mut serif = [on(5, Direction::Up), on(-2, Direction::Up)];
    serif[0].serif_ix = Some(1);
    let [turned, fresh] = turned_and_fresh(&serif);
    let flags = |edges: &[Edge]| edges.iter().map(|edge| edge.flags).collect::<Vec<_>>();
    assert_eq!(flags(&turned), [TopoFlags::NORMAL, TopoFlags::NORMAL]);
    assert_eq!(flags(&fresh), [TopoFlags::SERIF, TopoFlags::NORMAL]);
}

/// Jobs of a call that were made up in every profile.
fn made_up(call: usize) -> Vec<Job> {
    let mut random = Random::new(114);
    let mut jobs = Vec::new();
    for (_, profile) in PROFILES {
        for _ in 0..4_000 {
            let words = text::parse(&line(call, profile, &mut random));
            let job = words.and_then(|words| decode(&words));
            jobs.extend(job.filter(|job| crate::words::encode(job).values[0] == call as i32));
        }
    }
    jobs
}

#[test]
fn turning_twice_gives_the_axis_back() {
    let mut done = 0;
    for job in made_up(124) {
        let Job::TurnOver(given, old) = job else {
            continue;
        };
        let (mut segments, mut edges) = (given.clone(), old.clone());
        if turn_over(&mut segments, &mut edges).is_ok() {
            assert_eq!(turn_over(&mut segments, &mut edges), Ok(()));
            assert_eq!((segments, edges), (given, old));
            done += 1;
        }
    }
    assert!(done > 1_500);
}

/// Whether some made-up axis is turned otherwise by a wrong converter, which changes what the right one left.
fn turning_shows(wrong: impl Fn(&mut Table<Segment>, &mut Table<Edge>, &Table<Edge>)) -> bool {
    made_up(124).into_iter().any(|job| {
        let Job::TurnOver(mut segments, mut edges) = job else {
            return false;
        };
        let old = edges.clone();
        if turn_over(&mut segments, &mut edges).is_err() {
            return false;
        }
        let right = (segments.clone(), edges.clone());
        wrong(&mut segments, &mut edges, &old);
        right != (segments, edges)
    })
}

#[test]
fn slips_of_turning() {
    assert!(!turning_shows(|_, _, _| {}));
    let turned = |ix: Option<u16>, count: usize| ix.map(|ix| count as u16 - 1 - ix);
    // edges left where they were
    assert!(turning_shows(|_, edges, _| edges.items.reverse()));
    // serifs, links or the segments' edge indices left as they were
    assert!(turning_shows(|_, edges, _| for edge in &mut edges.items {
        edge.serif_ix = turned(edge.serif_ix, edges.count);
    }));
    assert!(turning_shows(|_, edges, _| for edge in &mut edges.items {
        edge.link_ix = turned(edge.link_ix, edges.count);
    }));
    assert!(turning_shows(|segments, edges, _| {
        for segment in &mut segments.items {
            segment.edge_ix = turned(segment.edge_ix, edges.count);
        }
    }));
    // one too many
    assert!(turning_shows(|segments, _, _| {
        for segment in &mut segments.items {
            segment.edge_ix = segment.edge_ix.map(|ix| ix + 1);
        }
    }));
    // first and last exchanged
    assert!(turning_shows(|_, edges, _| for edge in &mut edges.items {
        (edge.first_ix, edge.last_ix) = (edge.last_ix, edge.first_ix);
    }));
    // the segments turned as well
    assert!(turning_shows(|segments, _, _| segments.items.reverse()));
    // blues and flags left at their places
    assert!(turning_shows(|_, edges, old| {
        for (edge, old) in edges.items.iter_mut().zip(&old.items) {
            edge.blue_edge = old.blue_edge;
        }
    }));
    assert!(turning_shows(|_, edges, old| {
        for (edge, old) in edges.items.iter_mut().zip(&old.items) {
            edge.flags = old.flags;
        }
    }));
    // positions negated
    assert!(turning_shows(|_, edges, _| for edge in &mut edges.items {
        edge.pos = -edge.pos;
    }));
}

/// The number that a job answers.
fn number(job: &Job) -> i32 {
    answer(job.clone()).values[0]
}

/// A job with the old order asked for or not.
fn ordered(job: &Job, top_to_bottom: bool) -> Job {
    let mut job = job.clone();
    match &mut job {
        Job::Build(_, _, given) => given.top_to_bottom = top_to_bottom,
        Job::Adjust(_, _, _, order) => *order = top_to_bottom,
        Job::Stems(_, given) => given.top_to_bottom = top_to_bottom,
        Job::Joined(_, given) => given.top_to_bottom = top_to_bottom,
        _ => unreachable!("the other calls know no order"),
    }
    job
}

#[test]
fn slips_of_the_order() {
    for call in [105, 109, 112, 122] {
        let jobs = made_up(call);
        let asks = |job: &&Job| ordered(job, true) == **job;
        let other: Vec<i32> = jobs
            .iter()
            .filter(asks)
            .map(|j| number(&ordered(j, false)))
            .collect();
        let answers: Vec<i32> = jobs.iter().filter(asks).map(number).collect();
        assert!(answers.iter().all(|answer| [1, 10].contains(answer)));
        // refused behind 1, and in front of whatever else would be refused; ignored nowhere
        for refusal in [0, 1, 3, 4] {
            assert!(other.contains(&refusal), "call {call}, refusal {refusal}");
        }
        assert!(call == 109 || other.contains(&2));
        let expected = |other: &i32| if *other == 1 { 1 } else { 10 };
        assert_eq!(answers, other.iter().map(expected).collect::<Vec<_>>());
    }
}
