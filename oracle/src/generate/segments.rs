//! Segments for linking and building.

use super::{dimension, edges, group, old_order, Random};
use crate::{
    calls,
    given::metrics::{derived_constant, fixed_div},
    job::{Building, Direction, Job, Segment, Table, TopoFlags},
    limits::COORDINATE,
};

/// Directions that may be the major one, with their opposites.
const MAJOR: [(Direction, Direction); 5] = [
    (Direction::Right, Direction::Left),
    (Direction::Left, Direction::Right),
    (Direction::Up, Direction::Down),
    (Direction::Down, Direction::Up),
    (Direction::None, Direction::None),
];

/// Positions, scores and lengths whose eighths, quarters and thirds meet.
const MEETING: [i32; 14] = [0, 1, 2, 3, 4, 6, 7, 8, 9, 12, 14, 16, 18, 27];

/// A job of CJK linking, now and then with stretches about the length threshold.
pub fn link(small: bool, random: &mut Random) -> Job {
    let mut job = link_any(small, random);
    if let (Job::Link(segments, _, units_per_em, _), true) = (&mut job, random.once_in(3)) {
        *units_per_em = random.pick(&[255, 256, 511, 2_047, 16_383]);
        let threshold = derived_constant(*units_per_em, 8) as i16;
        for segment in &mut segments.items {
            segment.min_coord = 0;
            segment.max_coord = threshold - 1 + (segment.first_ix % 3) as i16;
        }
    }
    job
}

/// A job of CJK linking.
fn link_any(small: bool, random: &mut Random) -> Job {
    let (major, opposite) = MAJOR[random.below(41) / 10];
    let count = if small {
        random.below(7) + 1
    } else {
        random.below(20) + 2
    };
    let span = random.pick(&[30, 200, 1_000, 32_767]);
    let fresh = random.coin();
    let mut segments: Vec<Segment> = (0..count)
        .map(|_| {
            let mut segment = placed(small, span, random);
            segment.dir = direction(major, opposite, random);
            measure(&mut segment, small, fresh, random);
            segment
        })
        .collect();
    let links = if fresh { 0 } else { random.below(4) };
    connect(&mut segments, links, random);
    match random.below(4) {
        0 => lengthen(&mut segments, random),
        1 => nest(&mut segments, random),
        _ => {}
    }
    let scale = link_scale(random);
    if random.coin() {
        meet_threshold(&mut segments, scale, random);
    }
    let units_per_em = random.pick(&[16, 250, 256, 1_000, 1_000, 2_048, 16_384]);
    Job::Link(Table::of(segments), major, units_per_em, scale)
}

/// Gives some segments a score about the distance threshold, 192 divided by the scale.
fn meet_threshold(segments: &mut [Segment], scale: i32, random: &mut Random) {
    let threshold = fixed_div(192, scale);
    for segment in segments.iter_mut().filter(|_| random.once_in(3)) {
        segment.score = (threshold - 1 + i32::from(segment.first_ix % 3)).clamp(0, 65_535);
    }
}

/// Segments that linking has linked, for building along their major direction.
pub fn linked(given: &mut Building, random: &mut Random) -> Table<Segment> {
    let Job::Link(mut segments, major, units_per_em, scale) = link_any(false, random) else {
        unreachable!("linking makes a linking job")
    };
    given.major = major;
    let result = calls::link_segments_cjk(&mut segments, major, units_per_em, scale);
    debug_assert!(result.is_ok(), "the job is within the limits");
    segments
}

/// A scale whose distance threshold, 192 divided by it, is often small.
fn link_scale(random: &mut Random) -> i32 {
    match random.below(4) {
        0 => random.pick(&[1, 32_768, 65_536, 131_072, 16_777_216]),
        1 => random.between(1, 16_777_216),
        _ => 192 * 65_536 / (random.pick(&MEETING) + random.between(1, 3)),
    }
}

/// A segment at a position, over a stretch.
fn placed(small: bool, span: i32, random: &mut Random) -> Segment {
    let at = |random: &mut Random| -> i16 {
        if small {
            return random.pick(&MEETING) as i16;
        }
        random.between(-span, span) as i16
    };
    let (a, b) = (at(random), at(random));
    let (min_coord, max_coord) = if random.once_in(8) {
        (a, b)
    } else {
        (a.min(b), a.max(b))
    };
    Segment {
        flags: TopoFlags::from_bits_truncate(random.below(16) as u8),
        pos: at(random),
        delta: random.pick(&[0, 0, 1, 5]),
        min_coord,
        max_coord,
        height: max_coord.wrapping_sub(min_coord),
        first_ix: random.below(100) as u16,
        last_ix: random.below(100) as u16,
        ..Segment::default()
    }
}

/// Gives score and len: as segment finding leaves them, or any.
fn measure(segment: &mut Segment, small: bool, fresh: bool, random: &mut Random) {
    (segment.score, segment.len) = if fresh && random.below(8) > 0 {
        (32_000, 0)
    } else if small {
        (random.pick(&MEETING), random.pick(&MEETING))
    } else {
        (random.between(0, 400), random.between(0, 400))
    };
}

/// A direction: mostly the major one or its opposite.
fn direction(major: Direction, opposite: Direction, random: &mut Random) -> Direction {
    match random.below(12) {
        0..=4 => major,
        5..=9 => opposite,
        10 => Direction::None,
        _ => MAJOR[random.below(5)].0,
    }
}

/// Links and serifs: 0 none, 1 pairs, 2 pairs with some loose, 3 any.
fn connect(segments: &mut [Segment], kind: usize, random: &mut Random) {
    let count = segments.len();
    let any = |random: &mut Random| Some(random.below(count) as u16);
    if kind == 1 || kind == 2 {
        for ix in (1..count).step_by(2) {
            segments[ix - 1].link_ix = Some(ix as u16);
            segments[ix].link_ix = Some(ix as u16 - 1);
        }
    }
    for segment in segments.iter_mut() {
        if kind == 3 || (kind == 2 && random.once_in(3)) {
            segment.link_ix = random.coin().then_some(()).and_then(|_| any(random));
        }
        if kind > 0 && random.once_in(4) {
            segment.serif_ix = any(random);
        }
        if random.once_in(10) {
            segment.edge_next_ix = any(random);
        }
        if random.once_in(10) {
            segment.edge_ix = Some(random.below(65_536) as u16);
        }
    }
}

/// Makes stretches far apart, so that stems may stand one around the other.
fn lengthen(segments: &mut [Segment], random: &mut Random) {
    for segment in segments {
        let start = random.pick(&[0, 100, 1_000]);
        segment.min_coord = start;
        segment.max_coord = start + random.pick(&[9, 30, 90, 300]);
    }
}

/// Makes pairs that the first round passes over, one around the other, for the serif round.
fn nest(segments: &mut [Segment], random: &mut Random) {
    connect(segments, 1, random);
    for segment in segments.iter_mut() {
        segment.dir = Direction::None;
        segment.score = random.pick(&[3, 4, 5, 8, 15, 16, 17]);
        segment.len = random.pick(&MEETING);
    }
    for pair in segments.chunks_exact_mut(2) {
        pair[0].pos = random.between(0, 3) as i16;
        pair[1].pos = random.between(3, 6) as i16;
    }
    if random.coin() {
        segments.reverse();
        connect(segments, 1, random);
    }
}

/// A job of building.
pub fn build(small: bool, random: &mut Random) -> Job {
    let given = building(random);
    let count = if small {
        random.below(7) + 1
    } else {
        random.below(24) + 2
    };
    let segments = building_segments(count, &given, small, random);
    let old = edges::old_table(random);
    Job::Build(Table::of(segments), Table::of(old), given)
}

/// Segments for building: positions meet the distance threshold, heights and deltas theirs.
pub fn building_segments(
    count: usize,
    given: &Building,
    small: bool,
    random: &mut Random,
) -> Vec<Segment> {
    let opposite = MAJOR.iter().find(|pair| pair.0 == given.major);
    let (major, opposite) = *opposite.expect("every direction is in the table");
    let reach = reach(given.scale);
    let step = step(given, random);
    let mut segments: Vec<Segment> = (0..count)
        .map(|_| {
            let near = random.between(-1, 1);
            let cells = if small { 3 } else { 12 };
            let pos = step * random.between(-cells, cells) / random.pick(&[1, 1, 2]) + near;
            let mut segment = placed(true, 0, random);
            segment.pos = pos.clamp(-reach, reach) as i16;
            segment.dir = direction(major, opposite, random);
            segment.height = height(given.length, random);
            segment.delta = (given.width + random.between(-3, 1)).clamp(-4, 32_767) as i16;
            measure(&mut segment, true, true, random);
            segment
        })
        .collect();
    let kind = random.below(4);
    connect(&mut segments, kind, random);
    if random.once_in(4) {
        cluster(&mut segments, given, step);
    }
    segments
}

/// About how far apart two edges must be: the threshold itself, or a quarter of a pixel.
fn step(given: &Building, random: &mut Random) -> i32 {
    let quarter = (16 << 16) / given.scale.max(1);
    random.pick(&[given.distance, quarter]).clamp(1, 2_000)
}

/// Brings segments together around two places, each linked to some at the other.
fn cluster(segments: &mut [Segment], given: &Building, step: i32) {
    let count = segments.len();
    for (ix, segment) in segments.iter_mut().enumerate() {
        let place = 10 * step * (ix % 2) as i32;
        let near = i32::from(segment.pos) % (step + 1);
        segment.pos = (place + near).clamp(-reach(given.scale), reach(given.scale)) as i16;
        segment.dir = given.major;
        let other = (usize::from(segment.first_ix) / 2 * 2 + 1 + ix % 2) % count;
        segment.link_ix = (segment.last_ix % 8 > 0).then_some(other as u16);
    }
}

/// A height about the length threshold, or about one and a half of it.
fn height(threshold: i32, random: &mut Random) -> i16 {
    let base = random.pick(&[threshold, threshold * 3 / 2, threshold * 2, 100]);
    (base + random.between(-1, 2)).clamp(-32_768, 32_767) as i16
}

/// How far a position may be from 0 at this scale.
fn reach(scale: i32) -> i32 {
    let reach = (i64::from(*COORDINATE.end()) << 16) / i64::from(scale.max(1));
    reach.min(32_767) as i32
}

/// What building is told.
pub fn building(random: &mut Random) -> Building {
    let scale = match random.below(5) {
        0 => random.pick(&[1_000, 16_384, 32_768]),
        1 => 65_536,
        2 => random.between(20_000, 131_072),
        // 2 to 4, at which positions reach the limit
        3 => random.between(131_072, 262_144),
        _ => random.between(1, 16_777_216),
    };
    let distance = match random.below(3) {
        0 => (16 << 16) / scale + random.between(-1, 1),
        _ => random.pick(&[0, 1, 2, 3, 5, 16, 17, 21, 40, 65_535]),
    };
    Building {
        dim: dimension(random),
        major: MAJOR[random.below(41) / 10].0,
        group: group(random),
        top_to_bottom: old_order(random),
        scale,
        distance: distance.clamp(0, 65_535),
        length: random.pick(&[0, 0, 1, 10, 21, 64, 500]),
        width: random.pick(&[0, 1, 10, 32, 100, 65_535]),
    }
}
