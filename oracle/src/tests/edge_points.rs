//! Edge points: worked values, the order of refusals, and the given Rust and the second writing on made-up jobs and on every small one.

use super::{job_of, segment};
use crate::{
    edge_points::{align_edge_points, by_given_rust, moved},
    generate::{edge_points::small, line, Random, PROFILES},
    job::{Edge, EdgePoints, Job, Segment, Table, TopoFlags},
    refusals::{self, Answer, Refusal},
};
use std::convert::Infallible;

/// An edge that was at a position and is at another, and is done.
fn moving(opos: i32, pos: i32) -> Edge {
    Edge {
        opos,
        pos,
        flags: TopoFlags::DONE,
        ..Edge::default()
    }
}

/// The same, not done.
fn not_done(edge: Edge) -> Edge {
    Edge {
        flags: TopoFlags::NORMAL,
        ..edge
    }
}

/// A segment from a point to another, on an edge.
fn walk(first_ix: u16, last_ix: u16, edge: u16) -> Segment {
    Segment {
        first_ix,
        last_ix,
        edge_ix: Some(edge),
        ..segment(0)
    }
}

/// Points of one contour, untouched, to be snapped by every edge.
fn points(currents: &[i32]) -> EdgePoints {
    EdgePoints {
        snap: true,
        done_alone: false,
        currents: currents.to_vec(),
        touches: vec![0; currents.len()],
        ends: vec![currents.len() as u16 - 1],
    }
}

/// The same, shifted.
fn shifted(given: EdgePoints) -> EdgePoints {
    EdgePoints {
        snap: false,
        ..given
    }
}

/// What the call makes of points: their currents and marks, the same with and without the filter unless an edge is not done.
fn aligned(
    segments: &[Segment],
    edges: &[Edge],
    given: &EdgePoints,
) -> Answer<(Vec<i32>, Vec<u8>)> {
    let (segments, edges) = (Table::of(segments.to_vec()), Table::of(edges.to_vec()));
    let mut given = given.clone();
    align_edge_points(&segments, &edges, &mut given)?;
    Ok((given.currents, given.touches))
}

/// The currents alone.
fn currents(segments: &[Segment], edges: &[Edge], given: &EdgePoints) -> Vec<i32> {
    aligned(segments, edges, given)
        .expect("the points are accepted")
        .0
}

#[test]
fn a_bar_of_two_sides() {
    let result = aligned(
        &[walk(0, 1, 1), walk(3, 4, 0)],
        &[moving(0, 0), moving(61, 64)],
        &points(&[61, 61, 31, 0, 0]),
    );
    assert_eq!(result, Ok((vec![64, 64, 31, 0, 0], vec![1, 1, 0, 1, 1])));
}

#[test]
fn over_the_start_of_the_contour() {
    let mut given = points(&[10, 5, 5, 12]);
    given.touches = vec![0, 9, 0, 7];
    let (segments, edges) = ([walk(3, 0, 0)], [moving(10, 64)]);
    let result = aligned(&segments, &edges, &given);
    assert_eq!(result, Ok((vec![64, 5, 5, 64], vec![1, 9, 0, 1])));
    let result = aligned(&segments, &edges, &shifted(given));
    assert_eq!(result, Ok((vec![64, 5, 5, 66], vec![1, 9, 0, 1])));
}

#[test]
fn around_the_whole_contour() {
    let given = shifted(points(&[1, 2, 3, 4]));
    let found = currents(&[walk(2, 1, 0)], &[moving(10, 64)], &given);
    assert_eq!(found, [55, 56, 57, 58]);
}

#[test]
fn one_point_of_several_segments() {
    let (first, second) = (walk(0, 1, 0), walk(1, 2, 1));
    let edges = [moving(0, 5), moving(0, 9)];
    let given = points(&[0, 0, 0]);
    assert_eq!(currents(&[first, second], &edges, &given), [5, 9, 9]);
    assert_eq!(currents(&[second, first], &edges, &given), [5, 5, 9]);
    let given = shifted(given);
    assert_eq!(currents(&[first, second], &edges, &given), [5, 14, 9]);
    assert_eq!(currents(&[first, first], &edges, &given), [10, 10, 0]);
}

#[test]
fn done_edges_alone() {
    let segments = [walk(0, 1, 0), walk(1, 2, 1)];
    let edges = [moving(0, 5), not_done(moving(0, 9))];
    let mut given = points(&[0, 0, 0]);
    assert_eq!(currents(&segments, &edges, &given), [5, 9, 9]);
    given.done_alone = true;
    let result = aligned(&segments, &edges, &given);
    assert_eq!(result, Ok((vec![5, 5, 0], vec![1, 1, 0])));
}

#[test]
fn moved_by_nothing_is_visited() {
    let given = points(&[7, 7]);
    let result = aligned(&[walk(0, 0, 0)], &[moving(7, 7)], &given);
    assert_eq!(result, Ok((vec![7, 7], vec![1, 0])));
}

#[test]
fn walks_that_leave_their_contour() {
    let mut given = points(&[0, 0]);
    given.ends = vec![0, 1];
    let edges = [moving(0, 5)];
    let refused = Err(Refusal(3));
    assert_eq!(aligned(&[walk(0, 1, 0)], &edges, &given), refused);
    let loose = Segment {
        edge_ix: None,
        ..walk(0, 1, 0)
    };
    assert!(aligned(&[loose], &edges, &given).is_ok());
    assert_eq!(aligned(&[walk(2, 2, 0)], &edges, &given), refused);
    // a point of no contour, though the given Rust would end
    given.ends = vec![];
    assert_eq!(aligned(&[walk(0, 0, 0)], &edges, &given), refused);
    // with the filter too
    given.done_alone = true;
    let edges = [not_done(edges[0])];
    assert_eq!(aligned(&[walk(0, 0, 0)], &edges, &given), refused);
}

#[test]
fn edges_by_which_points_are_moved_are_near() {
    let mut given = points(&[0]);
    let far = moving(0, 65_536);
    let segments = [walk(0, 0, 0)];
    assert_eq!(aligned(&segments, &[far], &given), Err(Refusal(4)));
    assert_eq!(
        aligned(&segments, &[not_done(far)], &given),
        Err(Refusal(4))
    );
    assert!(aligned(&segments, &[moving(0, 0), far], &given).is_ok());
    given.done_alone = true;
    assert_eq!(aligned(&segments, &[far], &given), Err(Refusal(4)));
    assert!(aligned(&segments, &[not_done(far)], &given).is_ok());
}

#[test]
fn the_farthest_result() {
    let given = shifted(points(&[65_535]));
    let segments = [walk(0, 0, 0); 512];
    let found = currents(&segments, &[moving(-65_535, 65_535)], &given);
    assert_eq!(found, [67_173_375]);
}

#[test]
fn refuses_in_order() {
    let mut faulty = walk(0, 1, 0);
    faulty.score = -1;
    faulty.link_ix = Some(9);
    let mut segments = Table {
        count: 513,
        items: vec![faulty; 512],
    };
    let mut edges = Table::of(vec![moving(0, 65_536)]);
    let mut given = points(&[0, 65_536]);
    given.ends = vec![2];
    given.touches.pop();
    let mut answers = Vec::new();
    for mend in 0..9 {
        match mend {
            1 => segments = Table::of(vec![faulty]),
            2 => given.touches.push(0),
            3 => given.ends = vec![0, 1],
            4 => segments.items[0].link_ix = None,
            5 => given.ends = vec![1],
            6 => given.currents[1] = 0,
            7 => segments.items[0].score = 0,
            8 => edges.items[0].pos = 65_535,
            _ => {}
        }
        let before = given.clone();
        let result = align_edge_points(&segments, &edges, &mut given);
        assert!(result.is_ok() || given == before, "a refusal writes");
        answers.push(result.map_or_else(|refusal| refusal.0, |()| 0));
    }
    assert_eq!(answers, [1, 1, 3, 3, 3, 4, 4, 4, 0]);
}

/// Whether the given Rust and the second writing agree on a job that is accepted: as it is, and with the filter by taking the edge from the segments whose edge is not done.
fn agree(segments: &[Segment], edges: &[Edge], given: &EdgePoints) -> bool {
    let filtered = |segment: &Segment| {
        let done = |ix: &u16| edges[usize::from(*ix)].flags.contains(TopoFlags::DONE);
        Segment {
            edge_ix: segment.edge_ix.filter(|ix| !given.done_alone || done(ix)),
            ..*segment
        }
    };
    let left: Vec<Segment> = segments.iter().map(filtered).collect();
    by_given_rust(&left, edges, given) == moved(segments, edges, given)
}

#[test]
fn the_second_writing_is_the_given_rust() {
    let mut random = Random::new(128);
    let (mut accepted, mut walks, mut seams, mut whole) = (0, 0, 0, 0);
    for (_, profile) in PROFILES {
        for _ in 0..50_000 {
            let Some(Job::EdgePoints(segments, edges, given)) =
                job_of(&line(128, profile, &mut random))
            else {
                continue;
            };
            if refusals::edge_points(&segments, &edges, &given).is_err() {
                continue;
            }
            assert!(agree(&segments.items, &edges.items, &given));
            accepted += 1;
            for segment in segments.items.iter().filter(|s| s.edge_ix.is_some()) {
                walks += 1;
                seams += usize::from(segment.last_ix < segment.first_ix);
                whole += usize::from(segment.last_ix + 1 == segment.first_ix);
            }
        }
    }
    assert!(accepted > 100_000, "{accepted} jobs are accepted");
    assert!(8 * seams > walks, "{seams} of {walks} go over a start");
    assert!(whole > 10_000, "{whole} go around a contour");
}

#[test]
fn every_small_job() {
    let mut accepted = 0;
    let done: Result<(), Infallible> = small(&mut |job| {
        let Job::EdgePoints(segments, edges, given) = job else {
            unreachable!("the jobs are of edge points");
        };
        if refusals::edge_points(segments, edges, given).is_ok() {
            accepted += 1;
            assert!(agree(&segments.items, &edges.items, given));
        }
        Ok(())
    });
    assert_eq!((done, accepted), (Ok(()), 64_040));
}
