//! Remaining edges: worked values, marks, the order of refusals, when a position is beyond, and the given Rust and the second writing on made-up jobs.

use super::{done, edge, job_of, positions};
use crate::{
    generate::{line, Random, PROFILES},
    job::{
        Dimension, Edge, Job, Mark, Remaining,
        ScriptGroup::{self, Cjk, Default as Latin},
        Table, TopoFlags,
    },
    refusals::{self, Answer, Refusal},
    remaining::{align_remaining_edges, by_given_rust, placed},
};

/// The farthest position.
const FAR: i32 = 16_777_216;

/// A done edge that was at a position and is at another.
fn moved(opos: i32, pos: i32) -> Edge {
    Edge {
        pos,
        ..done(edge(opos))
    }
}

/// An edge that names a serif.
fn serif(opos: i32, serif: u16) -> Edge {
    Edge {
        serif_ix: Some(serif),
        ..edge(opos)
    }
}

/// An edge with its place in font units.
fn font(fpos: i16, edge: Edge) -> Edge {
    Edge { fpos, ..edge }
}

/// What the call is told.
fn given(group: ScriptGroup, count: u16, anchor: Option<u16>) -> Remaining {
    Remaining {
        dim: Dimension::Vertical,
        group,
        count,
        anchor,
    }
}

/// The pass on edges: what it makes of them, and the anchor.
fn pass(edges: &[Edge], given: Remaining) -> Answer<(Vec<Edge>, Option<usize>)> {
    let mut table = Table::of(edges.to_vec());
    let anchor = align_remaining_edges(&mut table, &given)?;
    let other = Remaining {
        dim: Dimension::Horizontal,
        ..given
    };
    let mut again = Table::of(edges.to_vec());
    let same = align_remaining_edges(&mut again, &other);
    assert_eq!((&again, same), (&table, Ok(anchor)), "a dimension decides");
    Ok((table.items, anchor))
}

/// Latin's positions and the anchor.
fn latin(edges: &[Edge], anchor: Option<u16>) -> (Vec<i32>, Option<usize>) {
    let (edges, anchor) = pass(edges, given(Latin, 7, anchor)).expect("the edges are accepted");
    assert!(edges.iter().all(is_done), "an edge is not done");
    (positions(&Table::of(edges)), anchor)
}

/// CJK's positions.
fn cjk(edges: &[Edge], count: u16) -> Vec<i32> {
    let (edges, anchor) = pass(edges, given(Cjk, count, None)).expect("the edges are accepted");
    assert_eq!(anchor, None);
    positions(&Table::of(edges))
}

/// Whether an edge is done.
fn is_done(edge: &Edge) -> bool {
    edge.flags.contains(TopoFlags::DONE)
}

/// The marks of edges.
fn marks(edges: &[Edge], given: Remaining) -> Vec<Mark> {
    let (edges, _) = pass(edges, given).expect("the edges are accepted");
    edges.iter().map(|edge| edge.mark).collect()
}

#[test]
fn by_a_serif_less_than_80_away() {
    for (opos, pos) in [(79, 89), (80, 106), (81, 106), (-79, -69)] {
        let edges = [moved(0, 10), serif(opos, 0)];
        assert_eq!(latin(&edges, Some(0)), (vec![10, pos], Some(0)));
    }
    // the serif need not be done, and may be the edge itself
    let behind = Edge { pos: 5, ..edge(20) };
    assert_eq!(latin(&[serif(10, 1), behind], None).0, [-5, 0]);
    let itself = Edge {
        pos: 5,
        ..serif(10, 0)
    };
    assert_eq!(latin(&[itself], None), (vec![5], None));
}

#[test]
fn the_anchor_in_front_of_the_edges_on_both_sides() {
    for (opos, with, without) in [(51, 65, 64), (31, 40, 0)] {
        let edges = [moved(0, 0), edge(opos), moved(100, 128)];
        assert_eq!(latin(&edges, Some(2)), (vec![0, with, 128], Some(2)));
        assert_eq!(latin(&edges, None), (vec![0, without, 128], Some(1)));
    }
    let edges = [edge(40), edge(70), edge(100)];
    assert_eq!(latin(&edges, None), (vec![64, 96, 128], Some(0)));
}

#[test]
fn halves_between_two_edges() {
    for (to, pos) in [(1, 1), (-1, -1)] {
        let edges = [moved(0, 0), edge(1), moved(2, to)];
        assert_eq!(latin(&edges, Some(0)).0, [0, pos, to]);
    }
    let equal = [moved(5, 20), edge(9), moved(5, 40)];
    assert_eq!(latin(&equal, Some(0)).0, [20, 20, 40]);
}

#[test]
fn spaced_from_the_anchor() {
    for (opos, pos) in [(15, 0), (16, 32), (47, 32), (48, 64)] {
        assert_eq!(latin(&[moved(0, 0), edge(opos)], Some(0)).0, [0, pos]);
    }
    for (opos, pos) in [(-16, 0), (-17, -32), (-49, -64)] {
        assert_eq!(latin(&[edge(opos), moved(0, 0)], Some(1)).0, [pos, 0]);
    }
}

#[test]
fn held_to_the_neighbours() {
    let middle = |link: u16| Edge {
        link_ix: Some(link),
        ..serif(10, 2)
    };
    let edges = |link: u16| [moved(0, 100), middle(link), moved(20, 64)];
    assert_eq!(latin(&edges(2), Some(0)).0, [100, 64, 64]);
    assert_eq!(latin(&edges(0), Some(0)).0, [100, 54, 64]);
    let told = given(Latin, 0, Some(0));
    assert_eq!(marks(&edges(2), told)[1], Mark::Bound);
    assert_eq!(marks(&edges(0), told)[1], Mark::Serif);
}

#[test]
fn the_order_may_be_lost() {
    let edges = [edge(40), edge(50), moved(60, 60)];
    assert_eq!(latin(&edges, None), (vec![64, 62, 60], Some(0)));
    assert_eq!(latin(&[edge(0), moved(1, -1)], None).0, [0, -1]);
    let behind = [moved(-3, -2), moved(0, -1), edge(1)];
    assert_eq!(latin(&behind, Some(0)).0, [-2, -1, -2]);
    let in_front = [edge(-3), moved(0, -5), moved(2, 0)];
    assert_eq!(latin(&in_front, Some(2)).0, [0, -5, 0]);
    assert_eq!(latin(&[serif(1, 1), edge(2)], None).0, [1, 0]);
}

#[test]
fn cjk_edges() {
    let (first, last) = (font(0, moved(0, 10)), font(40, moved(28, 50)));
    let middle = font(10, edge(7));
    assert_eq!(cjk(&[first, middle, last], 1), [10, 20, 50]);
    assert_eq!(cjk(&[first, middle, last], 0), [10, 7, 50]);
    assert_eq!(cjk(&[first, middle], 1), [10, 17]);
    assert_eq!(cjk(&[middle, last], 1), [29, 50]);
    assert_eq!(cjk(&[middle], 1), [7]);
    let with_serif = [first, font(10, serif(7, 2)), last];
    assert_eq!(cjk(&with_serif, 0), [10, 29, 50]);
    let told = given(Cjk, 1, None);
    let (edges, _) = pass(&with_serif, told).expect("the edges are accepted");
    assert!(is_done(&edges[1]));
    let (edges, _) = pass(&[first, middle, last], told).expect("the edges are accepted");
    assert!(!is_done(&edges[1]));
}

#[test]
fn a_serif_uses_up_the_count() {
    let edges = [moved(0, 10), serif(7, 0), edge(20)];
    assert_eq!(cjk(&edges, 1), [10, 17, 20]);
    assert_eq!(cjk(&edges, 2), [10, 17, 30]);
    assert_eq!(cjk(&edges, 0), [10, 17, 20]);
}

#[test]
fn marks_tell_who_gave_the_position() {
    use Mark::*;
    let edges = [
        moved(0, 0),
        edge(30),
        moved(60, 60),
        edge(200),
        serif(230, 3),
    ];
    let told = given(Latin, 3, Some(0));
    assert_eq!(
        marks(&edges, told),
        [Nothing, Between, Nothing, Spaced, Serif]
    );
    assert_eq!(
        marks(&edges, given(Latin, 3, None)),
        [Nothing, RemainingAnchor, Nothing, Spaced, Serif]
    );
    let cjk = |edges: &[Edge]| marks(edges, given(Cjk, 9, None));
    assert_eq!(cjk(&edges), [Nothing, Between, Nothing, Between, Serif]);
    assert_eq!(cjk(&edges[..4]), [Nothing, Between, Nothing, Serif]);
    assert_eq!(cjk(&edges[1..2]), [Nothing]);
}

#[test]
fn positions_that_are_beyond() {
    let beyond = |edges: &[Edge], anchor| {
        let result = pass(edges, given(Latin, 0, anchor));
        result.map_or_else(|refusal| refusal.0, |_| 0)
    };
    assert_eq!(beyond(&[moved(0, FAR), serif(1, 0)], None), 8);
    assert_eq!(beyond(&[moved(0, FAR), serif(0, 0)], None), 0);
    assert_eq!(beyond(&[moved(0, FAR), edge(16)], Some(0)), 8);
    assert_eq!(beyond(&[moved(0, FAR), edge(15)], Some(0)), 0);
    let outside = [moved(0, 0), edge(2), moved(1, FAR)];
    assert_eq!(beyond(&outside, Some(0)), 8);
    assert_eq!(beyond(&[outside[0], edge(1), outside[2]], Some(0)), 0);
    // beyond on the way alone: held to the first edge it is within
    let held = Edge {
        link_ix: Some(2),
        ..serif(-1, 0)
    };
    assert_eq!(beyond(&[moved(0, -FAR), held, moved(3, 0)], Some(0)), 8);
    let wide = [moved(-65_535, -FAR), edge(65_535), moved(-65_534, FAR)];
    assert_eq!(beyond(&wide, Some(0)), 8);
    let cjk = [font(0, moved(0, FAR)), font(1, edge(1))];
    assert_eq!(pass(&cjk, given(Cjk, 1, None)), Err(Refusal(8)));
    assert!(pass(&cjk, given(Cjk, 0, None)).is_ok());
}

#[test]
fn refuses_in_order() {
    let mut faulty = moved(65_536, FAR);
    faulty.link_ix = Some(200);
    let mut table = Table {
        count: 129,
        items: vec![faulty; 128],
    };
    let mut told = given(Latin, 0, Some(2));
    let mut answers = Vec::new();
    for mend in 0..6 {
        match mend {
            1 => table = Table::of(vec![faulty, serif(1, 0)]),
            2 => table.items[0].link_ix = Some(0),
            3 => told.anchor = Some(1),
            4 => table.items[0].opos = 0,
            5 => table.items[1].opos = 0,
            _ => {}
        }
        let before = table.clone();
        let result = align_remaining_edges(&mut table, &told);
        assert!(result.is_ok() || table == before, "a refusal writes");
        answers.push(result.map_or_else(|refusal| refusal.0, |_| 0));
    }
    assert_eq!(answers, [1, 3, 3, 4, 8, 0]);
    // of CJK too, which does not read the anchor
    let beyond = pass(&[edge(0)], given(Cjk, 0, Some(1)));
    assert_eq!(beyond, Err(Refusal(3)));
}

#[test]
fn the_second_writing_is_the_given_rust() {
    let mut random = Random::new(130);
    let (mut accepted, mut beyond, mut given_marks) = ([0; 2], 0, [0; Mark::ALL.len()]);
    for (_, profile) in PROFILES {
        for _ in 0..100_000 {
            let Some(Job::Remaining(edges, given)) = job_of(&line(130, profile, &mut random))
            else {
                continue;
            };
            match refusals::remaining(&edges, &given) {
                Ok(()) => accepted[given.group as usize] += 1,
                Err(Refusal(8)) => {
                    beyond += 1;
                    continue;
                }
                Err(_) => continue,
            }
            let mut by_rust = edges.clone();
            let anchor = by_given_rust(&mut by_rust, &given);
            let plain = placed(&edges.items, &given).expect("the edges are accepted");
            assert_eq!((by_rust.items, anchor), plain);
            for (before, behind) in edges.items.iter().zip(&plain.0) {
                if before.pos != behind.pos {
                    given_marks[behind.mark as usize] += 1;
                }
            }
        }
    }
    assert!(
        accepted.iter().all(|count| *count > 100_000),
        "{accepted:?}"
    );
    assert!(beyond > 2_000, "{beyond} are beyond");
    for mark in [
        Mark::Bound,
        Mark::Serif,
        Mark::Between,
        Mark::Spaced,
        Mark::RemainingAnchor,
    ] {
        assert!(
            given_marks[mark as usize] > 3_000,
            "{mark:?}: {given_marks:?}"
        );
    }
}

#[test]
fn behind_the_pass_every_call_on_edges_takes_them() {
    let mut random = Random::new(131);
    for _ in 0..20_000 {
        let Some(Job::Remaining(mut edges, given)) = job_of(&line(130, PROFILES[0].1, &mut random))
        else {
            continue;
        };
        if align_remaining_edges(&mut edges, &given).is_ok() {
            assert_eq!(refusals::edges(&edges, &[]), Ok(()));
            let not_done = edges.items.iter().filter(|edge| !is_done(edge)).count();
            assert!(given.group == Cjk || not_done == 0);
        }
    }
}
