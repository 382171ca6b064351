//! Axes with their outlines, to be fitted: glyphs of bars that the given Rust builds edges of, the m among them, axes and points that are made up, tables of which every step on the way
//! refuses some, and small ones one after the other.

use super::{
    dimension, drop_skipped_zones, edge_points, edges, few::lists, group, least, limits, points,
    strong, Random,
};
use crate::{
    calls,
    given::metrics::{fixed_div, fixed_mul},
    job::{
        Building, Dimension, Direction, Edge, Fit, Job, ScaledWidth, ScriptGroup, Segment, Table,
        TopoFlags, WidthRule,
    },
    limits::{COORDINATE, EDGES, LEAST, NUMBERS, POINTS, POSITION},
};

/// An axis, and what fitting it is told.
struct Axis {
    segments: Vec<Segment>,
    edges: Vec<Edge>,
    given: Fit,
}

/// A job of fitting an axis.
pub fn job(small: bool, random: &mut Random) -> Job {
    let mut axis = match random.below(16) {
        0..=6 => glyph(small, random),
        7..=8 => letter_m(random),
        9..=10 => made_up(small, random),
        _ => late(random),
    };
    drop_skipped_zones(&mut axis.edges, axis.given.dim, axis.given.group, random);
    Job::Fit(Table::of(axis.segments), Table::of(axis.edges), axis.given)
}

/// What fitting is told, of an outline that is still to be given.
fn choices(random: &mut Random) -> Fit {
    Fit {
        dim: dimension(random),
        group: group(random),
        stem_adjust: random.coin(),
        snap: random.below(4) > 0,
        done_alone: random.coin(),
        rule: edges::rule(random),
        lowercase_m: random.coin(),
        least: random.pick(&[0, 0, 32, 64]),
        linked: random.coin(),
        fonts: Vec::new(),
        originals: Vec::new(),
        currents: Vec::new(),
        touches: Vec::new(),
        weak: Vec::new(),
        ends: Vec::new(),
    }
}

/// An outline of a few contours of bars, with the axis that is built of its segments; some edges stand on zones, lost their link, or were placed before.
fn glyph(small: bool, random: &mut Random) -> Axis {
    let mut outline = Outline::default();
    let most = if small { 2 } else { 4 };
    let reach = random.pick(&[30, 300, 300, 2_000]);
    for _ in 0..random.below(most) + 1 {
        let levels = random.pick(&[2, 2, 4]);
        let levels: Vec<i32> = (0..levels).map(|_| random.between(-reach, reach)).collect();
        outline.contour(&levels, random);
    }
    let mut axis = outline.built(scale(random), choices(random), random);
    let (zones, unlinked) = (random.pick(&[2, 4, 100]), random.pick(&[3, 6, 100]));
    for edge in &mut axis.edges {
        if random.once_in(zones) {
            edge.blue_edge = Some(edges::zone(edge.opos, random));
        }
        if random.once_in(unlinked) {
            edge.link_ix = None;
        }
    }
    if random.once_in(8) {
        place_some(&mut axis.edges, random);
    }
    if !axis.edges.is_empty() && random.coin() {
        axis.given.least = least(&axis.edges, random);
    }
    axis
}

/// A scale at which glyphs are some pixels or some hundreds of them high.
fn scale(random: &mut Random) -> i32 {
    random.pick(&[16_000, 40_000, 65_536, 100_000, 262_144]) + random.between(0, 5_000)
}

/// Makes some edges done, a little away from where they were.
fn place_some(edges: &mut [Edge], random: &mut Random) {
    for edge in edges {
        if random.coin() {
            let pos = edge.pos + random.between(-70, 70);
            put(edge, pos);
        }
    }
}

/// The outline of an m, of three stems about equally far apart, with serifs or without: horizontal but for once in eight times, and mostly said to be one.
fn letter_m(random: &mut Random) -> Axis {
    let scale = scale(random);
    let (distance, width, serif) = (
        random.between(60, 300),
        random.between(8, 30),
        random.between(5, 7),
    );
    let uneven = fixed_div(random.between(-9, 9), scale);
    let serifs = random.coin();
    let mut outline = Outline::default();
    for stem in [0, distance, 2 * distance + uneven] {
        let sides = [stem, stem + width];
        outline.contour(&sides, random);
        if serifs {
            outline.contour(&[stem - serif, stem + width + serif], random);
            outline.as_serifs();
        }
    }
    let mut axis = outline.built(scale, choices(random), random);
    axis.given.lowercase_m = random.below(8) > 0;
    if random.below(8) > 0 {
        axis.given.dim = Dimension::Horizontal;
    }
    axis
}

/// An outline that is being made, in font units, with the segments of its bars.
#[derive(Default)]
struct Outline {
    fonts: Vec<i16>,
    weak: Vec<u8>,
    ends: Vec<u16>,
    segments: Vec<Segment>,
}

impl Outline {
    /// Adds a contour that goes from level to level and back to the first, from any of its points on: at each a segment of one point or a few, mostly linked to the next or the one
    /// before, and between them points of which some are weak.
    fn contour(&mut self, levels: &[i32], random: &mut Random) {
        let (mut places, mut walks) = (Vec::new(), Vec::new());
        for (ix, level) in levels.iter().enumerate() {
            let first = places.len();
            places.resize(first + random.pick(&[1, 2, 2, 3]), (*level, 0));
            walks.push((*level, first, places.len() - 1));
            let next = levels[(ix + 1) % levels.len()];
            for _ in 0..random.pick(&[0, 0, 1, 2]) {
                let between = random.between(*level.min(&next), *level.max(&next));
                places.push((between, strong::mark(random)));
            }
        }
        let (start, count) = (self.fonts.len(), places.len());
        let turn = random.below(count);
        let point = |place: usize| (start + (place + turn) % count) as u16;
        let front = self.segments.len();
        for (ix, (level, first, last)) in walks.into_iter().enumerate() {
            let dir = [Direction::Up, Direction::Down][ix % 2];
            let beside = (front + (ix ^ 1)) as u16;
            self.segments.push(Segment {
                flags: random.pick(&[TopoFlags::NORMAL, TopoFlags::NORMAL, TopoFlags::ROUND]),
                dir,
                pos: level as i16,
                height: 100,
                score: 32_000,
                first_ix: point(first),
                last_ix: point(last),
                link_ix: (random.below(6) > 0).then_some(beside),
                serif_ix: random.once_in(12).then_some(beside),
                ..Segment::default()
            });
        }
        places.rotate_right(turn);
        self.fonts.extend(places.iter().map(|place| place.0 as i16));
        self.weak.extend(places.iter().map(|place| place.1));
        self.ends.push(self.fonts.len() as u16 - 1);
    }

    /// Makes the two segments of the last contour serifs of those of the one before.
    fn as_serifs(&mut self) {
        let count = self.segments.len();
        for (ix, segment) in self.segments.iter_mut().enumerate().skip(count - 2) {
            segment.link_ix = None;
            segment.serif_ix = Some(ix as u16 - 2);
        }
    }

    /// The axis that the given Rust builds of it, all scaled by one scale; now and then a point behind the last contour, or marks that were set before.
    fn built(mut self, scale: i32, mut given: Fit, random: &mut Random) -> Axis {
        let building = Building {
            dim: given.dim,
            major: Direction::Up,
            group: given.group,
            top_to_bottom: false,
            scale,
            distance: random.pick(&[1, 1, 3, 20]),
            length: 0,
            width: 0,
        };
        let mut axis = calls::cleared(&self.segments, &building);
        calls::build(&mut axis, &calls::building_metrics(&building), &building);
        if random.once_in(8) {
            self.fonts.push(0);
            self.weak.push(0);
        }
        let touched = random.once_in(6);
        let touch = |_: &i16| if touched { strong::mark(random) } else { 0 };
        given.touches = self.fonts.iter().map(touch).collect();
        let scaled = |font: &i16| fixed_mul((*font).into(), scale);
        given.originals = self.fonts.iter().map(scaled).collect();
        given.currents = given.originals.clone();
        (given.fonts, given.weak, given.ends) = (self.fonts, self.weak, self.ends);
        Axis {
            segments: axis.segments,
            edges: axis.edges,
            given,
        }
    }
}

/// An axis of edge points, with originals, font positions and weak marks.
fn made_up(small: bool, random: &mut Random) -> Axis {
    let Job::EdgePoints(segments, edges, points) = edge_points::job(small, random) else {
        unreachable!("edge points make such a job");
    };
    let count = points.currents.len();
    let mut given = choices(random);
    given.fonts = (0..count)
        .map(|_| strong::font(&edges.items, random))
        .collect();
    given.originals = if random.coin() {
        points.currents.clone()
    } else {
        given.fonts.iter().map(|font| (*font).into()).collect()
    };
    given.weak = (0..count).map(|_| strong::mark(random)).collect();
    (given.snap, given.done_alone) = (points.snap, points.done_alone);
    (given.currents, given.touches) = (points.currents, points.touches);
    given.ends = points.ends;
    Axis {
        segments: segments.items,
        edges: edges.items,
        given,
    }
}

/// A table of which some step behind the first may refuse; now and then with a number beyond its limit, which is told in front.
fn late(random: &mut Random) -> Axis {
    let mut axis = match random.below(8) {
        0..=1 => beyond_by_stems(random),
        2 => beyond_by_the_m(random),
        3 => beyond_by_serifs(random),
        4 => far_edges(random),
        5 => far_shifts(random),
        6 => far_strong_points(random),
        _ => steep_weak_points(random),
    };
    if random.once_in(16) {
        go_beyond(&mut axis, random);
    }
    axis
}

/// Puts a score, an edge, the originals or the currents beyond their limits.
fn go_beyond(axis: &mut Axis, random: &mut Random) {
    let beyond = COORDINATE.end() + 1;
    match random.below(4) {
        0 => axis.segments[0].score = -1,
        1 => axis.edges.push(Edge {
            opos: beyond,
            ..Edge::default()
        }),
        2 => axis.given.originals.fill(beyond),
        _ => axis.given.currents.fill(-beyond),
    }
}

/// An end of what a position may be, or a little within.
fn an_end(random: &mut Random) -> i32 {
    let inward = random.pick(&[0, 0, 1, 30, 200]);
    random.pick(&[*POSITION.start() + inward, *POSITION.end() - inward])
}

/// So many edges one behind the other, this far apart, where they were.
fn in_a_row(count: usize, gap: i32) -> Vec<Edge> {
    let edge = |ix: usize| Edge {
        fpos: (gap * ix as i32) as i16,
        opos: gap * ix as i32,
        pos: gap * ix as i32,
        ..Edge::default()
    };
    (0..count).map(edge).collect()
}

/// Makes an edge done at a position.
fn put(edge: &mut Edge, pos: i32) {
    edge.pos = pos;
    edge.flags |= TopoFlags::DONE;
}

/// Links two edges to each other.
fn link(edges: &mut [Edge], first: usize, second: usize) {
    edges[first].link_ix = Some(second as u16);
    edges[second].link_ix = Some(first as u16);
}

/// A stem, and an edge at the end of what a position may be, to which another one is linked: the others are done or left, some tables are of an m.
fn beyond_by_stems(random: &mut Random) -> Axis {
    let count = random.pick(&[4, 5, 6, 6, 12]);
    let mut edges = in_a_row(count, random.pick(&[20, 70, 100]));
    let end = an_end(random);
    link(&mut edges, 0, 1);
    put(&mut edges[2], end);
    (edges[3].link_ix, edges[3].pos) = (Some(2), end);
    let left = random.coin();
    for edge in edges.iter_mut().skip(4).filter(|_| !left) {
        let pos = edge.opos;
        put(edge, pos);
    }
    pointed(edges, random)
}

/// An m whose second stem is about as far away as a position may be, and, mostly, a stem besides that is not done.
fn beyond_by_the_m(random: &mut Random) -> Axis {
    let (count, stems) = random.pick(&[(6, [0, 2, 4]), (12, [1, 5, 9])]);
    let mut edges = in_a_row(count, 50);
    let end = an_end(random);
    for edge in &mut edges {
        let pos = edge.opos;
        put(edge, pos);
    }
    edges[stems[1]].pos = random.pick(&[end, end / 2, end / 2 + 40]);
    if random.below(4) > 0 {
        link(&mut edges, stems[0] + 1, stems[1] + 1);
        for stem in &stems[..2] {
            edges[stem + 1].flags = TopoFlags::NORMAL;
        }
    }
    let mut axis = pointed(edges, random);
    (axis.given.dim, axis.given.lowercase_m) = (Dimension::Horizontal, true);
    axis.given.group = random.pick(&[ScriptGroup::Default, ScriptGroup::Default, ScriptGroup::Cjk]);
    axis
}

/// A done edge at the end of what a position may be, and others that name it as their serif, or nothing.
fn beyond_by_serifs(random: &mut Random) -> Axis {
    let mut edges = in_a_row(random.below(4) + 1, random.pick(&[1, 16, 40]));
    let at = random.below(edges.len());
    put(&mut edges[at], an_end(random));
    for edge in &mut edges {
        edge.serif_ix = random.coin().then_some(at as u16);
    }
    pointed(edges, random)
}

/// Done edges beyond where points may be, or at the limit.
fn far_edges(random: &mut Random) -> Axis {
    let mut edges = in_a_row(random.below(3) + 1, 40);
    for edge in &mut edges {
        put(edge, edge_points::far(random));
    }
    pointed(edges, random)
}

/// Edges that were moved far, and points that are shifted with them or snapped, from near the limit.
fn far_shifts(random: &mut Random) -> Axis {
    let mut edges = in_a_row(random.below(3) + 1, 40);
    let end = random.pick(&[*COORDINATE.start(), *COORDINATE.end()]);
    for edge in &mut edges {
        put(edge, end / random.pick(&[1, 2, 3]));
    }
    let mut axis = pointed(edges, random);
    axis.given.snap = random.once_in(4);
    for current in &mut axis.given.currents {
        if random.coin() {
            *current = end / random.pick(&[1, 2, 4]);
        }
    }
    axis
}

/// An axis of these edges, each with a segment of one point where it was, and a point behind it; all or some of the segments have no edge.
fn pointed(mut edges: Vec<Edge>, random: &mut Random) -> Axis {
    let loose = random.pick(&[1, 8]);
    let mut given = choices(random);
    let mut segments = Vec::new();
    for (ix, edge) in edges.iter_mut().enumerate() {
        (edge.first_ix, edge.last_ix) = (ix as u16, ix as u16);
        segments.push(Segment {
            first_ix: given.fonts.len() as u16,
            last_ix: given.fonts.len() as u16,
            edge_ix: (!random.once_in(loose)).then_some(ix as u16),
            edge_next_ix: Some(ix as u16),
            ..Segment::default()
        });
        for beside in [0, random.between(0, 20)] {
            given.fonts.push((i32::from(edge.fpos) + beside) as i16);
            given.originals.push(edge.opos + beside);
        }
    }
    let count = given.fonts.len();
    given.currents = given.originals.clone();
    given.touches = vec![0; count];
    given.weak = (0..count).map(|_| strong::mark(random)).collect();
    given.ends = vec![count as u16 - 1];
    Axis {
        segments,
        edges,
        given,
    }
}

/// Edges and points of strong points, all edges done and named by no segment, with every cut into contours.
fn far_strong_points(random: &mut Random) -> Axis {
    let Job::Strong(mut edges, points) = strong::job(random.coin(), random) else {
        unreachable!("strong points make such a job");
    };
    for edge in &mut edges.items {
        edge.flags |= TopoFlags::DONE;
    }
    let mut given = choices(random);
    given.ends = points::ends(points.fonts.len(), random);
    (given.fonts, given.originals) = (points.fonts, points.originals);
    (given.currents, given.touches, given.weak) = (points.currents, points.touches, points.weak);
    unnamed(edges.items, given)
}

/// An outline of weak points, most of its points weak, with few edges that are done.
fn steep_weak_points(random: &mut Random) -> Axis {
    let outline = if random.once_in(4) {
        points::points(random.coin(), random)
    } else {
        points::panel(random)
    };
    let mut edges = in_a_row(random.below(3), 30);
    for edge in &mut edges {
        let pos = edge.opos;
        put(edge, pos);
    }
    let count = outline.originals.len();
    let mut given = choices(random);
    given.fonts = (0..count).map(|_| strong::font(&edges, random)).collect();
    given.weak = vec![random.pick(&[1, 255]); count];
    if random.once_in(3) {
        given.weak = (0..count).map(|_| strong::mark(random)).collect();
    }
    (given.originals, given.currents) = (outline.originals, outline.currents);
    (given.touches, given.ends) = (outline.touches, outline.ends);
    unnamed(edges, given)
}

/// An axis of these edges whose one segment has none of them.
fn unnamed(mut edges: Vec<Edge>, given: Fit) -> Axis {
    for edge in &mut edges {
        (edge.first_ix, edge.last_ix) = (0, 0);
        (edge.link_ix, edge.blue_edge) = (None, None);
    }
    Axis {
        segments: vec![Segment::default()],
        edges,
        given,
    }
}

/// Makes a list of a job long, of another length than the others, or one that breaks its rule.
pub fn resize(
    segments: &mut Table<Segment>,
    edges: &mut Table<Edge>,
    given: &mut Fit,
    random: &mut Random,
) {
    match random.below(40) {
        0 => {
            let count = random.pick(&[POINTS - 1, POINTS, POINTS + 1, NUMBERS]);
            given.fonts.resize(count, 5);
            given.originals.resize(count, 6);
            given.currents.resize(count, 7);
            given.touches.resize(count, 0);
            given.weak.resize(count, 0);
        }
        1 => limits::resize_axis(segments, edges, random),
        2..=4 => {
            edges.items.resize(EDGES, Edge::default());
            edges.count = random.pick(&[EDGES, EDGES + 1, 65_535]);
        }
        5..=7 => given.fonts.push(0),
        8..=10 => given.originals.push(0),
        11..=13 => given.currents.push(0),
        14..=16 => given.touches.push(1),
        17..=19 => given.weak.push(0),
        20..=22 => given.ends.extend(given.ends.last().copied()),
        23..=25 => given.ends.reverse(),
        26..=28 => drop(given.ends.pop()),
        29..=31 => {
            given.least = random.pick(&[-1, *LEAST.end(), LEAST.end() + 1, i32::MIN]);
            // told in front of an end that is beyond
            given.ends.extend(random.coin().then_some(u16::MAX));
        }
        _ => {
            if let WidthRule::Snap(standards) = &mut given.rule {
                limits::break_rule(standards, random);
            }
        }
    }
}

/// Hands on every choice but the m with every two edges over few states, at three places; every outline of up to three points on one contour with up to two segments; and m's with every
/// choice of who they are.
pub fn small<E>(hand_on: &mut impl FnMut(&Job) -> Result<(), E>) -> Result<(), E> {
    every_choice(hand_on)?;
    for count in 0..=3 {
        every_outline(count, hand_on)?;
    }
    every_m(hand_on)
}

/// What a small axis is told: these choices, in the order of the numbers, of which the m is not one.
fn told(choices: &[bool]) -> Fit {
    let [vertical, cjk, stem_adjust, snap, done_alone, snaps_widths, linked] = choices else {
        unreachable!("there are seven choices");
    };
    Fit {
        dim: [Dimension::Horizontal, Dimension::Vertical][usize::from(*vertical)],
        group: [ScriptGroup::Default, ScriptGroup::Cjk][usize::from(*cjk)],
        stem_adjust: *stem_adjust,
        snap: *snap,
        done_alone: *done_alone,
        rule: if *snaps_widths {
            WidthRule::Snap(vec![40, 70])
        } else {
            WidthRule::Keep(Vec::new())
        },
        lowercase_m: false,
        least: 10,
        linked: *linked,
        fonts: Vec::new(),
        originals: Vec::new(),
        currents: Vec::new(),
        touches: Vec::new(),
        weak: Vec::new(),
        ends: Vec::new(),
    }
}

/// Gives a small axis its points, each by its font position, its touch mark and its weak mark: originals are twice the font positions, and one contour has all.
fn with_points(given: &mut Fit, points: &[(i16, u8, u8)]) {
    given.fonts = points.iter().map(|point| point.0).collect();
    given.originals = points.iter().map(|point| 2 * i32::from(point.0)).collect();
    given.currents = given.originals.clone();
    given.touches = points.iter().map(|point| point.1).collect();
    given.weak = points.iter().map(|point| point.2).collect();
    given.ends = points
        .len()
        .checked_sub(1)
        .map(|last| last as u16)
        .into_iter()
        .collect();
}

/// A segment from a point to another.
fn walk(first: usize, last: usize, edge: Option<u16>) -> Segment {
    Segment {
        first_ix: first as u16,
        last_ix: last as u16,
        edge_ix: edge,
        ..Segment::default()
    }
}

/// The states of an edge among two: whether it is done, whether it stands on a zone, and whether it names the other as its link, its serif or not.
const STATES: [(bool, bool, u8); 12] = {
    let mut states = [(false, false, 0); 12];
    let mut ix = 0;
    while ix < 12 {
        states[ix] = (ix % 2 == 1, ix / 2 % 2 == 1, ix as u8 / 4);
        ix += 1;
    }
    states
};

/// An edge in a state: at twice its font position, and moved a little where it is done.
fn in_state(fpos: i16, (done, zone, names): (bool, bool, u8), other: u16) -> Edge {
    let mut edge = Edge {
        fpos,
        opos: 2 * i32::from(fpos),
        pos: 2 * i32::from(fpos),
        link_ix: (names == 1).then_some(other),
        serif_ix: (names == 2).then_some(other),
        first_ix: other,
        last_ix: other,
        ..Edge::default()
    };
    if done {
        let pos = edge.pos + 9;
        put(&mut edge, pos);
    }
    if zone {
        let fitted = edge.opos / 64 * 64;
        edge.blue_edge = Some(ScaledWidth { fitted });
    }
    edge
}

/// Hands on every choice with every two edges, a point on each and one between, weak or strong.
fn every_choice<E>(hand_on: &mut impl FnMut(&Job) -> Result<(), E>) -> Result<(), E> {
    let segments = vec![walk(0, 0, Some(0)), walk(1, 1, Some(1))];
    for choices in lists(&[false, true], 7) {
        for states in lists(&STATES, 2) {
            for (low, high) in [(0, 20), (5, 45), (-40, 10)] {
                for weak in [0, 1] {
                    let mut given = told(&choices);
                    with_points(&mut given, &[(low, 0, 0), (high, 0, 0), (low + 7, 0, weak)]);
                    let edges = vec![in_state(low, states[0], 1), in_state(high, states[1], 0)];
                    hand_on(&Job::Fit(
                        Table::of(segments.clone()),
                        Table::of(edges),
                        given,
                    ))?;
                }
            }
        }
    }
    Ok(())
}

/// Hands on every outline of so many points, touched, weak or neither, with every list of up to two segments over them, with an edge or without; one of the two edges is done.
fn every_outline<E>(
    count: usize,
    hand_on: &mut impl FnMut(&Job) -> Result<(), E>,
) -> Result<(), E> {
    const FONTS: [i16; 3] = [30, 0, 11];
    let mut walks = Vec::new();
    for ends in 0..count * count {
        for edge in [None, Some(0), Some(1)] {
            walks.push(walk(ends / count, ends % count, edge));
        }
    }
    let edges = vec![in_state(0, STATES[1], 0), in_state(25, STATES[0], 0)];
    for segments in (0..=2).flat_map(|many| lists(&walks, many)) {
        for marks in lists(&[(0, 0), (0, 1), (7, 0)], count) {
            for choices in lists(&[false, true], 3) {
                let mut given = told(&[
                    true, choices[0], false, choices[1], choices[2], false, false,
                ]);
                let points: Vec<(i16, u8, u8)> = marks
                    .iter()
                    .zip(FONTS)
                    .map(|(mark, font)| (font, mark.0, mark.1))
                    .collect();
                with_points(&mut given, &points);
                let mut segments = segments.clone();
                segments.insert(0, Segment::default());
                hand_on(&Job::Fit(
                    Table::of(segments),
                    Table::of(edges.clone()),
                    given,
                ))?;
            }
        }
    }
    Ok(())
}

/// Hands on tables of about as many edges as an m has, its stems from evenly apart to too uneven, said to be one or not, of both dimensions and groups.
fn every_m<E>(hand_on: &mut impl FnMut(&Job) -> Result<(), E>) -> Result<(), E> {
    for count in [5, 6, 7, 11, 12, 13] {
        for uneven in -9..=9 {
            for choices in lists(&[false, true], 4) {
                let mut edges = in_a_row(count, 45);
                for edge in edges.iter_mut().skip(if count < 9 { 4 } else { 9 }) {
                    edge.opos += uneven;
                    edge.pos += uneven;
                }
                let front = if count < 9 || choices[3] { 0 } else { 1 };
                for ix in (front..count - 1).step_by(2) {
                    link(&mut edges, ix, ix + 1);
                }
                let mut given = told(&[choices[0], choices[1], false, true, false, false, false]);
                given.lowercase_m = choices[2];
                with_points(&mut given, &[(0, 0, 0), (90, 0, 0), (i16::MAX / 64, 0, 0)]);
                let segments = vec![walk(0, 0, Some(0)), walk(1, 1, Some(4))];
                hand_on(&Job::Fit(Table::of(segments), Table::of(edges), given))?;
            }
        }
    }
    Ok(())
}
