//! Jobs at document 01's limits, and just beyond.

use super::{
    catalogue, drag, edge_points, edges, fit, frames, job, path, references, saved, segments,
    shown, strong, Random,
};
use crate::{
    job::{
        Building, Catalogue, Direction, Edge, Job, Points, References, Segment, Table, Walk,
        WidthRule,
    },
    limits::{EDGES, LENT, NUMBERS, POINTS, SEGMENTS},
    text,
    words::{encode, Words},
};

/// A line of a job at the limits.
pub fn line(call: usize, random: &mut Random) -> Vec<u8> {
    let small = random.coin();
    let mut job = job(call, small, random);
    if random.once_in(4) {
        resize(&mut job, random);
    }
    let mut words = encode(&job);
    for _ in 0..random.pick(&[0, 1, 1, 1, 1, 2, 2, 3, 8]) {
        spike(&mut words, random);
    }
    text::write(&words.values).into_bytes()
}

/// The word of call 25, whose numbers have limits of their own.
const WRITE_FRAME: i32 = 25;
/// The words of calls 128 and 129, whose points stand behind their axis, and whose edges have to be where points may be.
const OVER_AXES: [i32; 2] = [128, 129];
/// The word of call 132, whose points are within its limit when they are magnified.
const SHOWN: i32 = 132;

/// Puts one word at a limit of its field.
fn spike(words: &mut Words, random: &mut Random) {
    let mut names = words.names.clone();
    names.sort_unstable();
    names.dedup();
    let name = random.pick(&names);
    let places: Vec<usize> = (0..words.names.len())
        .filter(|ix| words.names[*ix] == name)
        .collect();
    let ix = random.pick(&places);
    if name == "edge.fitted" && words.values[ix - 1] == 0 {
        return;
    }
    words.values[ix] = match name {
        "edge.link" | "edge.serif" | "anchor" => index(words, "edges", true, random),
        "base edge" | "stem edge" | "serif edge" | "edge" | "second edge" => {
            index(words, "edges", false, random)
        }
        "segment.link" | "segment.serif" | "segment.next" => index(words, "segments", true, random),
        "segment.edge" => index(words, "edges", true, random),
        "edge.first" | "edge.last" => index(words, "segments", false, random),
        "top to bottom" => 1,
        "original" | "current" if words.values[0] == WRITE_FRAME => {
            random.pick(&[32_767, 32_768, -32_768, -32_769, i32::MAX, i32::MIN])
        }
        "end" if words.values[0] == WRITE_FRAME => random.pick(&[0, 254, 255, 256, 65_535]),
        "byte" => i32::from(frames::character(random)),
        "end" | "segment.first" | "segment.last" if OVER_AXES.contains(&words.values[0]) => {
            index(words, "currents", false, random)
        }
        "edge.pos" if OVER_AXES.contains(&words.values[0]) && random.coin() => {
            edge_points::far(random)
        }
        "end" | "point" => index(words, words.names[1], false, random),
        "number before" | "number behind" => {
            let count = words.values[1].max(1) as usize;
            references::number(count, random).into()
        }
        "magnify" => shown::times(random),
        "x" | "y" if words.values[0] == SHOWN => {
            let magnify = words.values.last().copied().unwrap_or(1).clamp(1, 64);
            side(65_535 / magnify + random.between(-1, 1), true, random)
        }
        _ => limit(name, words.values[ix], random),
    };
}

/// An index about its list's length.
fn index(words: &Words, list: &str, may_be_none: bool, random: &mut Random) -> i32 {
    let place = words.names.iter().position(|name| *name == list);
    let count = place.map_or(0, |ix| words.values[ix]);
    let index = random.pick(&[count - 1, count - 1, count, count + 1, 65_535, 0]);
    index.clamp(if may_be_none { -1 } else { 0 }, 65_535)
}

/// Positions whose product with some scale of the next list is at the limit, or was before request #109.
const POSITIONS: [i32; 10] = [
    8_191, 8_192, 16_383, 16_384, 21_845, 21_846, 32_765, 32_766, 32_767, -32_768,
];

/// A half and 1 to 4, and scales about 2 at which the positions farthest from 0 are at the limit.
const SCALES: [i32; 9] = [
    32_768, 65_536, 131_070, 131_071, 131_072, 131_075, 131_076, 196_608, 262_144,
];

/// A limit of a field, or the word that was there.
fn limit(name: &str, word: i32, random: &mut Random) -> i32 {
    let ends: &[i32] = match name {
        "original" | "current" | "edge.opos" | "edge.fitted" => &[16_383, 65_535, 65_535, 65_535],
        "delta" => &[16_383],
        "x" | "y" => &[49_149, 196_605],
        "edge.pos" => &[16_777_216],
        "segment.score" | "segment.len" => &[0, 65_535],
        "distance threshold" | "length threshold" | "width threshold" => &[0, 65_535],
        "scale" => &[1, 16_777_216],
        "units per em" => &[16, 16_384],
        "standard" => &[1, 16_383],
        "least" => &[0, 65_535],
        "touch" | "weak" | "mark" | "own answer" => return random.pick(&[0, 1, 255]),
        "points" | "contours" => return random.pick(&[0, 1, word + 1, 4_096, 65_535]).min(65_535),
        "count" => return random.pick(&[0, 1, word + 1, 65_534, 65_535]).min(65_535),
        "cursor" => return random.pick(&[0, word.saturating_add(1), i32::MAX - 1, i32::MAX]),
        "segment.pos" => return side(random.pick(&POSITIONS), true, random).min(32_767),
        "segment.delta" | "segment.min_coord" | "segment.max_coord" | "segment.height"
        | "edge.fpos" | "font" => return random.pick(&[-32_768, 32_767, 0]),
        _ => return word,
    };
    let two_sided = matches!(
        name,
        "original" | "current" | "edge.opos" | "edge.fitted" | "delta" | "x" | "y" | "edge.pos"
    );
    let end = random.pick(ends);
    match random.below(8) {
        0 => random.pick(&[i32::MIN, i32::MAX, -1, 0]),
        1..=3 => side(end, two_sided, random),
        _ => side(end + random.between(-1, 1), two_sided, random),
    }
}

/// A value, or its negative where the range has both.
pub fn side(value: i32, two_sided: bool, random: &mut Random) -> i32 {
    if two_sided && random.coin() {
        -value
    } else {
        value
    }
}

/// Makes a list as long as its limit or one longer, or breaks a list's rule.
fn resize(job: &mut Job, random: &mut Random) {
    match job {
        Job::MidPos(..) | Job::MidDelta(..) => {}
        Job::Weak(points) => resize_points(points, random),
        Job::TurnOver(segments, edges) => resize_axis(segments, edges, random),
        Job::Strong(edges, given) => strong::resize(edges, given, random),
        Job::EdgePoints(segments, edges, given) => {
            edge_points::resize(segments, edges, given, random);
        }
        Job::Fit(segments, edges, given) => fit::resize(segments, edges, given, random),
        Job::Mend(segments, edges) => resize_saved(segments, edges, saved::ruin, random),
        Job::Pack(segments, edges) => resize_saved(segments, edges, saved::chain, random),
        Job::Link(segments, _, _, scale) => {
            resize_segments(segments, random);
            if segments.count > SEGMENTS && random.coin() {
                *scale = 0;
            }
        }
        Job::Build(segments, old, given) => {
            resize_building(segments, old, given, random);
            let long = segments.count > SEGMENTS || old.count > EDGES;
            if random.once_in(if long { 2 } else { 6 }) {
                given.top_to_bottom = true;
                given.scale *= random.below(2) as i32;
            }
        }
        Job::Path(walk) => resize_walk(walk, random),
        Job::Shown(walk, magnify) => shown::resize(walk, magnify, random),
        Job::PathStep(walk, cursor) => {
            resize_walk(walk, random);
            *cursor = path::cursor(walk, random);
        }
        Job::Catalogue(catalogue) => resize_catalogue(catalogue, random),
        Job::Remember(touches, ends, list) => resize_remembered(touches, ends, list, random),
        Job::WithReferences(points, list) => {
            resize_points(points, random);
            if random.coin() {
                *list = references::list_of(points);
            } else if random.coin() {
                references::unlike(list, random);
            }
        }
        Job::Drag(points, point) => {
            resize_points(points, random);
            if random.coin() {
                *point = drag::point(points, random);
            }
        }
        Job::WriteFrame(points, line) => frames::resize(points, line, random),
        Job::ReadFrame(line) => frames::lengthen(line, random),
        _ => resize_on_edges(job, random),
    }
}

/// The same of a call on edges.
fn resize_on_edges(job: &mut Job, random: &mut Random) {
    match job {
        Job::Blues(edges, _, _, rule) | Job::Linked(edges, rule, ..) => {
            resize_either(edges, rule, random);
        }
        Job::CjkStem(edges, given) => resize_either(edges, &mut given.rule, random),
        Job::Stems(edges, given) => {
            resize_either(edges, &mut given.rule, random);
            given.top_to_bottom |= random.once_in(4);
        }
        Job::Joined(edges, given) => {
            resize_either(edges, &mut given.rule, random);
            given.top_to_bottom |= random.once_in(4);
        }
        Job::Adjust(edges, _, _, top_to_bottom) => {
            resize_edges(edges, random);
            *top_to_bottom |= random.once_in(4);
        }
        Job::Serif(edges, ..) | Job::Bounds(edges, _) | Job::Remaining(edges, _) => {
            resize_edges(edges, random);
        }
        Job::Gaps(edges, least, _) => {
            resize_edges(edges, random);
            if random.once_in(4) {
                *least = -1;
            }
        }
        Job::M(edges, _) => {
            let count = m_count(random);
            resize_to(edges, count, random);
        }
        Job::MLent(edges, _) => {
            let count = m_count(random).min(LENT + 1);
            edges.resize(count, Edge::default());
        }
        _ => unreachable!("the other calls are not on edges"),
    }
}

/// Makes the point lists long or unlike, or breaks the contour ends' rule.
fn resize_points(points: &mut Points, random: &mut Random) {
    match random.below(40) {
        0 => {
            let count = random.pick(&[POINTS - 1, POINTS, POINTS + 1, 2 * POINTS - 1]);
            points.originals.resize(count, 5);
            points.currents.resize(count, 6);
            points.touches.resize(count, 0);
            points.ends.push(count as u16 - 1);
        }
        1..=6 => drop(points.originals.pop()),
        7..=12 => points.currents.push(0),
        13..=18 => points.touches.push(1),
        19..=24 => points.ends.extend(points.ends.last().copied()),
        _ => points.ends.reverse(),
    }
}

/// Makes marks and lists long, breaks the contour ends' rule, or makes the lists unlike.
fn resize_remembered(
    touches: &mut Vec<u8>,
    ends: &mut Vec<u16>,
    list: &mut References,
    random: &mut Random,
) {
    match random.below(20) {
        0 => {
            let count = random.pick(&[POINTS - 1, POINTS, POINTS + 1, 2 * POINTS - 1]);
            touches.resize(count, random.pick(&[0, 1]));
            list.before.resize(count, 7);
            list.behind.resize(count, 8);
            ends.push(count as u16 - 1);
        }
        1..=4 => ends.extend(ends.last().copied()),
        5..=8 => ends.reverse(),
        9..=12 => touches.push(1),
        _ => references::unlike(list, random),
    }
}

/// Makes the lists of an outline long or unlike, or breaks the contour ends' rule.
pub fn resize_walk(walk: &mut Walk, random: &mut Random) {
    match random.below(40) {
        0 => {
            let count = random.pick(&[POINTS - 1, POINTS, POINTS + 1, NUMBERS, NUMBERS + 1]);
            let mark = random.pick(&[0, 1]);
            walk.xs.resize(count, 5);
            walk.ys.resize(count, -6);
            walk.marks.resize(count, mark);
            let lone = random.coin();
            let last = count as u16 - 1;
            walk.ends = if lone {
                (0..=last).collect()
            } else {
                vec![last]
            };
        }
        1..=6 => drop(walk.xs.pop()),
        7..=12 => walk.ys.push(0),
        13..=18 => walk.marks.push(1),
        19..=24 => walk.ends.extend(walk.ends.last().copied()),
        25..=30 => walk.ends.reverse(),
        _ => far_apart(walk, random),
    }
}

/// Puts all places at the limits, so that halfway points are there too.
fn far_apart(walk: &mut Walk, random: &mut Random) {
    for coordinate in walk.xs.iter_mut().chain(&mut walk.ys) {
        *coordinate = random.pick(&[196_605, 196_604, -196_604, -196_605]);
    }
}

/// Makes an outline of a catalogue or a whole list long, or the lists unlike.
fn resize_catalogue(catalogue: &mut Catalogue, random: &mut Random) {
    match random.below(40) {
        0 => {
            let count = random.pick(&[POINTS - 1, POINTS, POINTS + 1]);
            catalogue::append(catalogue, long(count, random));
            catalogue.answers.push(2);
        }
        1 => {
            // Many outlines of no points, as many as a list holds or one more.
            let count = random.pick(&[NUMBERS, NUMBERS + 1]);
            catalogue.point_counts.resize(count, 0);
            catalogue.contour_counts.resize(count, 0);
            catalogue.answers.resize(count, 2);
        }
        2 => {
            // Together longer than one outline may be.
            for _ in 0..2 {
                catalogue::append(catalogue, long(POINTS / 2 + 100, random));
                catalogue.answers.push(2);
            }
        }
        _ => catalogue::unlike(catalogue, random),
    }
}

/// An outline of so many points on one contour.
fn long(count: usize, random: &mut Random) -> Points {
    let mut touches = vec![0; count];
    touches[random.below(count)] = 1;
    Points {
        originals: vec![5; count],
        currents: vec![random.pick(&[6, 65_536]); count],
        touches,
        ends: vec![count as u16 - 1],
    }
}

/// Makes the tables of building long, its edges many, or its products large.
fn resize_building(
    segments: &mut Table<Segment>,
    old: &mut Table<Edge>,
    given: &mut Building,
    random: &mut Random,
) {
    match random.below(8) {
        0 => resize_edges(old, random),
        1..=2 => {
            given.distance = 3;
            given.scale = 65_536;
            *segments = apart(random);
        }
        3..=5 => {
            given.scale = random.pick(&SCALES);
            let pos = side(random.pick(&POSITIONS), true, random);
            segments.items[0].pos = pos.clamp(-32_768, 32_767) as i16;
        }
        _ => resize_segments(segments, random),
    }
}

/// Makes a table of an axis as long as its limit or one longer, or empty, or its edges one or two.
pub fn resize_axis(segments: &mut Table<Segment>, edges: &mut Table<Edge>, random: &mut Random) {
    match random.below(6) {
        0 => {
            let count = random.pick(&[SEGMENTS - 1, SEGMENTS, SEGMENTS + 1, 65_535]);
            let items = segments.items.iter().copied().cycle();
            segments.items = items.take(count.min(SEGMENTS)).collect();
            if !segments.items.is_empty() {
                segments.count = count;
            }
        }
        1 => no_edges(segments, edges, random),
        2 => few_edges(edges, random),
        _ => {
            let count = random.pick(&[EDGES - 1, EDGES, EDGES, EDGES + 1, 65_535]);
            resize_to(edges, count, random);
        }
    }
}

/// Makes an axis as long as its limits or longer, changes all of it, or leaves it few edges.
fn resize_saved(
    segments: &mut Table<Segment>,
    edges: &mut Table<Edge>,
    change: fn(&mut Table<Segment>, &mut Table<Edge>, &mut Random),
    random: &mut Random,
) {
    match random.below(40) {
        0 => {
            saved::lengthen(segments, edges, random);
            if random.coin() {
                change(segments, edges, random);
            }
        }
        1..=5 => {
            resize_to(edges, random.pick(&[EDGES + 1, EDGES + 1, 65_535]), random);
            if let Some(segment) = segments.items.first_mut().filter(|_| random.coin()) {
                segment.score = -1;
            }
        }
        6..=20 => change(segments, edges, random),
        21..=30 => few_edges(edges, random),
        _ => no_edges(segments, edges, random),
    }
}

/// Leaves an axis no edges, and half of its segments none to name.
fn no_edges(segments: &mut Table<Segment>, edges: &mut Table<Edge>, random: &mut Random) {
    *edges = Table::of(Vec::new());
    for segment in segments.items.iter_mut().filter(|_| random.coin()) {
        segment.edge_ix = None;
    }
}

/// Leaves an axis one edge or two.
fn few_edges(edges: &mut Table<Edge>, random: &mut Random) {
    edges.items.truncate(random.pick(&[1, 2]));
    edges.count = edges.items.len();
}

/// A count of edges for the lowercase m.
fn m_count(random: &mut Random) -> usize {
    if random.below(8) > 0 {
        return random.pick(&[0, 1, 5, 7, 11, 13]);
    }
    random.pick(&[EDGES - 1, EDGES, EDGES + 1, LENT, LENT + 1, 65_535])
}

/// Breaks the width rule, changes the edges' count, or both.
fn resize_either(edges: &mut Table<Edge>, rule: &mut WidthRule, random: &mut Random) {
    let both = random.once_in(16);
    if both {
        resize_to(edges, EDGES + 1, random);
    } else if random.once_in(4) {
        return resize_edges(edges, random);
    }
    if let WidthRule::Snap(standards) = rule {
        break_rule(standards, random);
    }
}

/// Makes standards many, or breaks their order.
pub fn break_rule(standards: &mut Vec<i32>, random: &mut Random) {
    let many = |count: i32| (1..=count).map(|s| s * 7).collect();
    match random.below(20) {
        0 => *standards = many(8_191),
        1 => *standards = many(8_192),
        2..=9 => *standards = many(random.pick(&[15, 16, 17, 18])),
        10..=14 => standards.extend(standards.last().copied()),
        _ => standards.reverse(),
    }
}

/// Changes the edges' count: mostly to few, seldom to the limit.
fn resize_edges(edges: &mut Table<Edge>, random: &mut Random) {
    let count = match random.below(12) {
        0 => random.pick(&[EDGES - 1, EDGES, EDGES + 1, 65_535]),
        1 => 0,
        _ => random.below(4),
    };
    resize_to(edges, count, random);
}

/// Gives a table this many edges, the ones it had over and over.
fn resize_to(edges: &mut Table<Edge>, count: usize, random: &mut Random) {
    if edges.items.is_empty() {
        edges.items = edges::edges(true, random);
    }
    let items = edges.items.iter().copied().cycle();
    edges.items = items.take(count.min(EDGES)).collect();
    edges.count = count;
}

/// Changes the segments' count: mostly to few, seldom to the limit.
fn resize_segments(segments: &mut Table<Segment>, random: &mut Random) {
    let count = match random.below(40) {
        0 => random.pick(&[SEGMENTS - 1, SEGMENTS, SEGMENTS + 1, 65_535]),
        1..=4 => 0,
        _ => random.below(4),
    };
    let items = segments.items.iter().copied().cycle();
    segments.items = items.take(count.min(SEGMENTS)).collect();
    segments.count = count;
}

/// Segments far enough apart for an edge each, about as many as the table holds.
fn apart(random: &mut Random) -> Table<Segment> {
    if random.below(4) > 0 {
        return Table::of(Vec::new());
    }
    let count = random.pick(&[EDGES - 1, EDGES, EDGES, EDGES + 1, EDGES + 2]);
    let given = segments::building(random);
    let mut made = segments::building_segments(count, &given, false, random);
    let order = random.pick(&[1, 7, 31]);
    for (ix, segment) in made.iter_mut().enumerate() {
        segment.pos = (ix * order % count * 9) as i16;
        segment.height = 32_767;
        segment.delta = 0;
        if segment.dir == Direction::None || random.below(20) > 0 {
            segment.dir = Direction::Up;
        }
    }
    Table::of(made)
}
