//! Request #105: what last gave an edge its position, on small tables worked from the request.

use super::{done, edge, keep, linked, segment};
use crate::{
    calls,
    decode::decode,
    job::{
        Building, CjkStem, Dimension, Direction, Edge, Job, Mark, ScaledWidth, ScriptGroup,
        Segment, Stems, Table, TopoFlags,
    },
    refusals::Refusal,
    turn::turn_over,
    words::encode,
};
use Mark::*;
use ScriptGroup::{Cjk, Default as Latin};

/// An edge that has this mark.
fn marked(mark: Mark, edge: Edge) -> Edge {
    Edge { mark, ..edge }
}

/// An edge that has a zone there.
fn zoned(fitted: i32, edge: Edge) -> Edge {
    Edge {
        blue_edge: Some(ScaledWidth { fitted }),
        ..edge
    }
}

/// An edge whose zone is neutral.
fn neutral(edge: Edge) -> Edge {
    Edge {
        flags: edge.flags | TopoFlags::NEUTRAL,
        ..edge
    }
}

/// An edge moved to this position.
fn at(pos: i32, edge: Edge) -> Edge {
    Edge { pos, ..edge }
}

/// Marks and positions.
fn placed(edges: &[Edge]) -> Vec<(Mark, i32)> {
    edges.iter().map(|edge| (edge.mark, edge.pos)).collect()
}

/// What blues leave, on the vertical axis, and the anchor.
fn blues(edges: &[Edge]) -> (Vec<(Mark, i32)>, Option<usize>) {
    let mut edges = Table::of(edges.to_vec());
    let anchor = calls::align_edges_to_blues(&mut edges, Dimension::Vertical, Latin, &keep());
    (placed(&edges.items), anchor.expect("the edges are good"))
}

/// What the stem pass leaves, on the vertical axis.
fn stems(group: ScriptGroup, anchor: Option<u16>, edges: &[Edge]) -> Vec<(Mark, i32)> {
    let given = Stems {
        dim: Dimension::Vertical,
        group,
        stem_adjust: true,
        top_to_bottom: false,
        anchor,
        rule: keep(),
    };
    let mut edges = Table::of(edges.to_vec());
    assert!(calls::align_stem_edges(&mut edges, &given).is_ok());
    placed(&edges.items)
}

#[test]
fn the_first_zone_is_the_blue_anchor() {
    let edges = [
        edge(5),
        zoned(0, edge(10)),
        marked(Serif, zoned(128, edge(120))),
    ];
    let expected = vec![(Nothing, 5), (BlueAnchor, 0), (Blue, 128)];
    assert_eq!(blues(&edges), (expected, Some(1)));
}

#[test]
fn the_edge_on_the_zone_is_marked_though_the_other_is_the_anchor() {
    let edges = [linked(0, 1), zoned(64, linked(70, 0))];
    let expected = vec![(Linked, -6), (BlueAnchor, 64)];
    assert_eq!(blues(&edges), (expected, Some(0)));
}

#[test]
fn an_edge_already_done_keeps_its_mark_on_its_zone() {
    let edges = [
        linked(0, 1),
        done(marked(Serif, zoned(64, edge(70)))),
        zoned(192, edge(200)),
    ];
    // the visit had its anchor: what comes to a zone later is blue
    let expected = vec![(Linked, -6), (Serif, 64), (Blue, 192)];
    assert_eq!(blues(&edges), (expected, Some(0)));
}

#[test]
fn the_other_edge_of_blues_is_linked_done_or_not() {
    for other in [linked(60, 0), done(marked(Stem, linked(60, 0)))] {
        let expected = vec![(BlueAnchor, 64), (Linked, 124)];
        assert_eq!(
            blues(&[zoned(64, linked(0, 1)), other]),
            (expected, Some(0))
        );
    }
}

#[test]
fn losing_a_neutral_zone_gives_no_mark() {
    let own = marked(Bound, neutral(zoned(64, linked(70, 0))));
    assert_eq!(blues(&[own]), (vec![(Bound, 70)], None));
    // it was put on its zone first, and is linked when the other takes the zone from it
    let edges = [neutral(zoned(0, edge(5))), zoned(64, linked(75, 0))];
    let expected = vec![(Linked, -6), (Blue, 64)];
    assert_eq!(blues(&edges), (expected, Some(0)));
}

#[test]
fn a_linked_edge() {
    for stem in [edge(60), done(marked(Blue, edge(60)))] {
        let mut edges = Table::of(vec![marked(Anchor, at(10, edge(0))), stem]);
        assert_eq!(calls::align_linked_edge(&mut edges, &keep(), 0, 1), Ok(()));
        assert_eq!(placed(&edges.items), [(Anchor, 10), (Linked, 70)]);
    }
}

#[test]
fn a_serif_edge() {
    let mut edges = Table::of(vec![marked(Stem, at(10, edge(0))), edge(60)]);
    assert_eq!(calls::align_serif_edge(&mut edges, 0, 1), Ok(()));
    assert_eq!(placed(&edges.items), [(Stem, 10), (Serif, 70)]);
    // a write of the same position counts
    assert_eq!(calls::align_serif_edge(&mut edges, 0, 0), Ok(()));
    assert_eq!(placed(&edges.items), [(Serif, 10), (Serif, 70)]);
}

#[test]
fn bound_is_an_edge_that_the_bound_moves() {
    for (first, link, expected) in [
        (10, 27, (Bound, 10)),
        (10, 26, (Stem, 0)),
        (0, 27, (Stem, 0)),
    ] {
        let edges = vec![edge(first), marked(Stem, linked(0, 2)), edge(link)];
        let mut edges = Table::of(edges);
        assert_eq!(calls::adjust_link(&mut edges, 1, false, false), Ok(()));
        assert_eq!(placed(&edges.items)[1], expected);
    }
    let next = [edge(0), marked(Stem, linked(50, 0)), done(edge(40))];
    let mut edges = Table::of(vec![at(100, next[0]), next[1], next[2]]);
    assert_eq!(calls::adjust_link(&mut edges, 1, true, false), Ok(()));
    assert_eq!(placed(&edges.items)[1], (Stem, 50), "its link is at 100");
    edges.items[0].pos = 0;
    edges.items[1].link_ix = Some(2);
    assert_eq!(calls::adjust_link(&mut edges, 1, true, false), Ok(()));
    assert_eq!(placed(&edges.items)[1], (Bound, 40));
}

#[test]
fn both_edges_of_a_cjk_stem() {
    let given = CjkStem {
        dim: Dimension::Vertical,
        stem_adjust: true,
        rule: keep(),
        edge: 2,
        edge2: 0,
        delta: 0,
    };
    let edges = vec![done(marked(Blue, edge(80))), edge(60), edge(40)];
    let mut edges = Table::of(edges);
    assert!(calls::hint_normal_stem_cjk(&mut edges, &given).is_ok());
    assert_eq!(
        placed(&edges.items),
        [(Stem, 64), (Nothing, 60), (Stem, 24)]
    );
}

#[test]
fn the_stem_pass_of_cjk() {
    for second in [linked(80, 0), done(marked(Blue, linked(80, 0)))] {
        let expected = [(Stem, 24), (Stem, 64)];
        assert_eq!(stems(Cjk, None, &[linked(40, 1), second]), expected);
    }
    // with the second edge in front
    let in_front = [done(marked(Blue, at(10, edge(0)))), linked(60, 0)];
    assert_eq!(stems(Cjk, None, &in_front), [(Blue, 10), (Linked, 70)]);
    // too close to the stem before
    let close = [linked(40, 1), linked(80, 0), marked(Serif, linked(100, 3))];
    let passed = stems(Cjk, None, &[close[0], close[1], close[2], edge(150)]);
    assert_eq!(passed[2..], [(Serif, 100), (Nothing, 150)]);
}

#[test]
fn the_fallback_links() {
    let edges = [linked(60, 1), marked(Blue, zoned(0, at(10, edge(0))))];
    for group in [Latin, Cjk] {
        assert_eq!(stems(group, None, &edges), [(Linked, 70), (Blue, 10)]);
    }
}

#[test]
fn a_latin_stem_beside_an_anchor() {
    let anchor = done(marked(BlueAnchor, edge(0)));
    let beside = |first, second| stems(Latin, Some(0), &[anchor, first, second]);
    // thin and wide
    let thin = beside(linked(100, 2), linked(160, 1));
    assert_eq!(thin, [(BlueAnchor, 0), (Stem, 130), (Stem, 190)]);
    let wide = beside(linked(100, 2), linked(300, 1));
    assert_eq!(wide, [(BlueAnchor, 0), (Stem, 120), (Stem, 320)]);
    // the second edge done
    let adjusted = beside(linked(100, 2), done(marked(Blue, at(170, edge(160)))));
    assert_eq!(adjusted, [(BlueAnchor, 0), (Adjusted, 110), (Blue, 170)]);
}

#[test]
fn adjusted_and_then_bound_is_bound() {
    let edges = [
        done(marked(BlueAnchor, at(100, edge(0)))),
        linked(10, 2),
        done(marked(Blue, at(150, edge(70)))),
    ];
    let expected = [(BlueAnchor, 100), (Bound, 100), (Blue, 150)];
    assert_eq!(stems(Latin, Some(0), &edges), expected);
}

#[test]
fn the_first_latin_stem() {
    // its second edge, linked and not done
    let one_way = [linked(100, 1), edge(160)];
    assert_eq!(stems(Latin, None, &one_way), [(Anchor, 130), (Linked, 190)]);
    // which its own visit adjusts
    let both = [linked(100, 1), linked(160, 0)];
    assert_eq!(stems(Latin, None, &both), [(Anchor, 130), (Adjusted, 190)]);
    // the edge itself
    assert_eq!(stems(Latin, None, &[linked(100, 0)]), [(Linked, 96)]);
}

#[test]
fn passed_over_edges_keep_their_marks() {
    let edges = [marked(Serif, edge(0)), done(marked(Bound, linked(90, 0)))];
    for group in [Latin, Cjk] {
        assert_eq!(stems(group, Some(0), &edges), placed(&edges));
    }
}

/// The marks that the m leaves of so many edges, all marked bound, whose stems are at 0, 100 and this; the third is linked to this edge.
fn lowercase_m(count: usize, third: i32, link: Option<u16>, group: ScriptGroup) -> Vec<Mark> {
    let step = if count == 6 { 2 } else { 4 };
    let first = step / 2 - 1;
    let mut edges = vec![marked(Bound, edge(50)); count];
    for (ix, opos) in [0, 100, third].into_iter().enumerate() {
        let stem = first + step * ix;
        edges[stem] = marked(Bound, linked(opos, stem as u16 + 1));
    }
    edges[first + 2 * step].link_ix = link;
    let mut table = Table::of(edges.clone());
    assert_eq!(calls::hint_lowercase_m(&mut table, group), Ok(()));
    assert_eq!(calls::hint_lowercase_m_lent(&mut edges, group), Ok(()));
    assert_eq!(table.items, edges);
    edges.iter().map(|edge| edge.mark).collect()
}

/// Which of the edges the m marked.
fn moved(marks: &[Mark]) -> Vec<usize> {
    assert!(marks.iter().all(|mark| [Bound, LowercaseM].contains(mark)));
    (0..marks.len())
        .filter(|ix| marks[*ix] == LowercaseM)
        .collect()
}

#[test]
fn what_the_m_moves() {
    // by 0 too
    for third in [193, 200, 207] {
        assert_eq!(moved(&lowercase_m(6, third, Some(5), Latin)), [4, 5]);
        assert_eq!(moved(&lowercase_m(6, third, Some(0), Latin)), [0, 4]);
        assert_eq!(moved(&lowercase_m(6, third, None, Latin)), [4]);
        assert_eq!(moved(&lowercase_m(6, third, Some(5), Cjk)), [4, 5]);
        let twelve = lowercase_m(12, third, Some(10), Latin);
        assert_eq!(moved(&twelve), [8, 9, 10, 11]);
        assert_eq!(moved(&lowercase_m(12, third, None, Latin)), [8, 9, 11]);
    }
    // a span of 8, and CJK links that are not as asked
    for count in [6, 12] {
        assert!(moved(&lowercase_m(count, 208, None, Latin)).is_empty());
        assert!(moved(&lowercase_m(count, 192, None, Latin)).is_empty());
        assert!(moved(&lowercase_m(count, 200, None, Cjk)).is_empty());
    }
}

#[test]
fn edges_8_and_11_are_marked_and_not_done() {
    let mut edges = Table::of(vec![edge(0); 12]);
    assert_eq!(calls::hint_lowercase_m(&mut edges, Latin), Ok(()));
    for (ix, edge) in edges.items.iter().enumerate() {
        assert_eq!(edge.flags.contains(TopoFlags::DONE), ix == 9);
    }
}

#[test]
fn built_edges_have_nothing_yet() {
    let upward = |pos| Segment {
        dir: Direction::Up,
        ..segment(pos)
    };
    let mut segments = Table::of(vec![upward(0), upward(100)]);
    let mut edges = Table::of(vec![marked(Stem, edge(0)); 3]);
    let given = Building {
        dim: Dimension::Vertical,
        major: Direction::Up,
        group: Latin,
        top_to_bottom: false,
        scale: 65_536,
        distance: 3,
        length: 0,
        width: 0,
    };
    assert_eq!(
        calls::compute_edges(&mut segments, &mut edges, &given),
        Ok(())
    );
    assert_eq!(placed(&edges.items), [(Nothing, 0), (Nothing, 100)]);
}

#[test]
fn marks_go_with_their_edges_when_turned_over() {
    let mut edges = Table::of(Mark::ALL.map(|mark| marked(mark, edge(0))).to_vec());
    assert_eq!(
        turn_over(&mut Table::of(vec![segment(0)]), &mut edges),
        Ok(())
    );
    let marks = edges.items.iter().rev().map(|edge| edge.mark);
    assert!(marks.eq(Mark::ALL));
}

#[test]
fn a_refusal_leaves_marks() {
    let edges = [
        marked(Serif, zoned(64, edge(0))),
        marked(Stem, edge(65_536)),
    ];
    let mut table = Table::of(edges.to_vec());
    let refused = calls::align_edges_to_blues(&mut table, Dimension::Vertical, Latin, &keep());
    assert_eq!(refused, Err(Refusal(4)));
    assert_eq!(table.items, edges);
}

#[test]
fn a_mark_is_the_twelfth_word() {
    let job = |mark| {
        let edges = Table::of(vec![marked(mark, edge(0))]);
        encode(&Job::Linked(edges, keep(), 0, 0)).values
    };
    for (number, mark) in (0..).zip(Mark::ALL) {
        let words = job(mark);
        assert_eq!((words[0], words[13]), (107, number));
        assert!(decode(&words).is_some());
    }
    for number in [-1, 13, 255, i32::MAX] {
        let mut words = job(Nothing);
        words[13] = number;
        assert!(decode(&words).is_none(), "mark {number}");
    }
}
