//! The slips of document 01, but for the first, which no input can show.

use super::{done, edge, keep, linked, positions, segment};
use crate::{
    calls,
    job::{
        Building, Dimension, Direction, Edge, ScaledWidth, ScriptGroup, Segment, Stems, Table,
        TopoFlags, WidthRule,
    },
};

/// The flags of two edges whose one segment names the other as its serif.
fn serif_flags(from: u16, to: u16) -> Vec<TopoFlags> {
    let mut items = vec![segment(0), segment(100)];
    for segment in &mut items {
        segment.dir = Direction::Up;
    }
    items[usize::from(from)].serif_ix = Some(to);
    let mut segments: Table<Segment> = Table::of(items);
    let mut edges = Table::of(Vec::new());
    let given = Building {
        dim: Dimension::Vertical,
        major: Direction::Up,
        group: ScriptGroup::Cjk,
        top_to_bottom: false,
        scale: 65_536,
        distance: 10,
        length: 0,
        width: 0,
    };
    let result = calls::compute_edges(&mut segments, &mut edges, &given);
    assert_eq!(result, Ok(()));
    assert_eq!(edges.items[usize::from(from)].serif_ix, Some(to));
    edges.items.iter().map(|edge| edge.flags).collect()
}

#[test]
fn serif_flag_is_lost_on_a_higher_edge() {
    assert_eq!(serif_flags(1, 0), [TopoFlags::SERIF, TopoFlags::NORMAL]);
    assert_eq!(serif_flags(0, 1), [TopoFlags::NORMAL, TopoFlags::NORMAL]);
}

#[test]
fn blue_anchor_is_the_visited_edge() {
    let blue = Edge {
        blue_edge: Some(ScaledWidth { fitted: 128 }),
        ..linked(120, 0)
    };
    let mut edges = Table::of(vec![linked(50, 1), blue]);
    let group = ScriptGroup::Default;
    let anchor = calls::align_edges_to_blues(&mut edges, Dimension::Vertical, group, &keep());
    assert_eq!(anchor, Ok(Some(0)));
    assert_eq!(positions(&edges), [58, 128]);
}

/// Positions of a stem of odd width, with and without an anchor in front.
fn odd_stem(anchor: Option<u16>) -> Vec<i32> {
    let mut edges = Table::of(vec![done(edge(0)), linked(100, 2), linked(161, 1)]);
    let given = Stems {
        dim: Dimension::Vertical,
        group: ScriptGroup::Default,
        stem_adjust: false,
        top_to_bottom: false,
        anchor,
        rule: WidthRule::Keep(Vec::new()),
    };
    assert!(calls::align_stem_edges(&mut edges, &given).is_ok());
    positions(&edges)[1..].to_vec()
}

#[test]
fn odd_width_loses_a_unit_behind_an_anchor() {
    assert_eq!(odd_stem(Some(0)), [130, 190]);
    assert_eq!(odd_stem(None), [130, 191]);
}

/// Positions of a lowercase m of twelve edges, all at 0 but edge 9 at 10, which is linked.
fn twelve(link: Option<u16>) -> Vec<i32> {
    let mut items = vec![edge(0); 12];
    items[9].pos = 10;
    items[9].link_ix = link;
    let mut edges = Table::of(items);
    let result = calls::hint_lowercase_m(&mut edges, ScriptGroup::Default);
    assert_eq!(result, Ok(()));
    positions(&edges)[8..].to_vec()
}

#[test]
fn lowercase_m_moves_some_links_twice() {
    assert_eq!(twelve(None), [-10, 0, 0, -10]);
    assert_eq!(twelve(Some(10)), [-10, 0, -10, -10]);
    assert_eq!(twelve(Some(9)), [-10, -10, 0, -10]);
    assert_eq!(twelve(Some(8)), [-20, 0, 0, -10]);
    assert_eq!(twelve(Some(11)), [-10, 0, 0, -20]);
}
