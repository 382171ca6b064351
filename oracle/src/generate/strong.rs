//! Edges and strong points: edges of one font position, about as many as are searched one by one, points on them, beside them and between, steep pairs, places at the ends of
//! what a position may be, and every small table.

use super::{edges, few::lists, Random};
use crate::{
    given::metrics::fixed_mul,
    job::{Edge, Job, Strong, Table},
    limits::{COORDINATE, EDGES, NUMBERS, POINTS, POSITION},
};

/// A job of strong points.
pub fn job(small: bool, random: &mut Random) -> Job {
    let scale = random.pick(&[20_000, 65_536, 100_000, 131_072]);
    let edges = match random.below(12) {
        0 => Vec::new(),
        1 => edges::edges(small, random),
        2..=3 => steep(random),
        _ => rising(small, scale, random),
    };
    let count = match random.below(30) {
        0 => 0,
        _ if small => random.below(6) + 1,
        _ => random.below(30) + 1,
    };
    let mut given = Strong {
        fonts: Vec::new(),
        originals: Vec::new(),
        currents: Vec::new(),
        touches: Vec::new(),
        weak: Vec::new(),
    };
    let scaled = random.below(4) > 0;
    for _ in 0..count {
        let font = font(&edges, random);
        let original = original(&edges, font, scaled.then_some(scale), random);
        given.fonts.push(font);
        given.originals.push(original);
        given.currents.push(original);
        given.touches.push(mark(random));
        given.weak.push(mark(random));
    }
    Job::Strong(Table::of(edges), given)
}

/// A mark, mostly none.
pub fn mark(random: &mut Random) -> u8 {
    if random.once_in(5) {
        return random.pick(&[1, 2, 128, 255]);
    }
    0
}

/// How many edges there are: often about as many as are searched one by one, now and then as many as there may be.
fn count(small: bool, random: &mut Random) -> usize {
    match random.below(24) {
        0 => random.pick(&[EDGES - 1, EDGES]),
        1 => random.below(EDGES) + 1,
        2..=7 => random.pick(&[7, 8, 8, 9, 9, 10]),
        _ if small => random.below(5) + 1,
        _ => random.below(15) + 1,
    }
}

/// Edges whose font positions rise, often by nothing, or, now and then, fall; scaled, and moved.
fn rising(small: bool, scale: i32, random: &mut Random) -> Vec<Edge> {
    let mut edges = vec![Edge::default(); count(small, random)];
    edges::dress(&mut edges, random);
    let gap = random.pick(&[1, 2, 2, 5, 40, 200]);
    let equal = random.pick(&[2, 2, 3, 10]);
    let falls = random.pick(&[0, 0, 0, 0, 1, gap]);
    let moves = random.pick(&[0, 1, 30, 300, 60_000]);
    let mut font = random.between(-300, 300);
    for edge in &mut edges {
        if !random.once_in(equal) {
            font += random.between(-falls, gap);
        }
        edge.fpos = font as i16;
        edge.opos = fixed_mul(font, scale).clamp(*COORDINATE.start(), *COORDINATE.end());
        edge.pos = edge.opos + random.between(-moves, moves);
    }
    edges
}

/// A few edges, close by font position, whose positions are about as far apart as a quotient allows, or at the ends of what they may be.
fn steep(random: &mut Random) -> Vec<Edge> {
    let mut edges = vec![Edge::default(); random.pick(&[1, 2, 2, 3, 9])];
    edges::dress(&mut edges, random);
    let (mut font, mut pos) = (random.between(-20, 20), random.between(-80_000, 80_000));
    let to_an_end = random.once_in(3);
    for edge in &mut edges {
        let span = random.pick(&[0, 1, 2, 2, 3, 3, 4, 512, 1_023, 1_024]);
        font += span;
        let rise = 32_768 * span + random.pick(&[-1, 0, 0, 1, -30_000]);
        pos += if random.coin() { rise } else { -rise };
        edge.fpos = font as i16;
        edge.opos = font;
        let end = random.pick(&[*POSITION.start(), *POSITION.end()]);
        edge.pos = if to_an_end && random.coin() {
            end
        } else {
            pos.clamp(*POSITION.start(), *POSITION.end())
        };
    }
    edges
}

/// A font position: on an edge, beside one, or about all.
pub fn font(edges: &[Edge], random: &mut Random) -> i16 {
    let Some(last) = edges.len().checked_sub(1) else {
        return random.between(-100, 100) as i16;
    };
    let on = i32::from(edges[random.below(last + 1)].fpos);
    let (low, high) = (i32::from(edges[0].fpos), i32::from(edges[last].fpos));
    let font = match random.below(8) {
        0..=2 => on,
        3..=4 => on + random.pick(&[-1, 1]),
        5..=6 => random.between(low.min(high), low.max(high)),
        _ => random.pick(&[low - 9, high + 9, -32_768, 32_767]),
    };
    font.clamp(-32_768, 32_767) as i16
}

/// An original: the scaled font position, any, or so that a point at or outside the ends comes to the end of what a position may be.
fn original(edges: &[Edge], font: i16, scale: Option<i32>, random: &mut Random) -> i32 {
    let original = match (edges.first(), scale) {
        (Some(edge), _) if random.once_in(8) => {
            let end = if edge.pos < 0 {
                *POSITION.start()
            } else {
                *POSITION.end()
            };
            end - edge.pos + edge.opos + random.between(-1, 1)
        }
        (_, Some(scale)) => fixed_mul(font.into(), scale),
        _ => edges::opos(random),
    };
    original.clamp(*COORDINATE.start(), *COORDINATE.end())
}

/// Makes the lists of points long or unlike, or the edges many, few or none.
pub fn resize(edges: &mut Table<Edge>, given: &mut Strong, random: &mut Random) {
    match random.below(40) {
        0 => {
            let count = random.pick(&[POINTS - 1, POINTS, POINTS + 1, NUMBERS]);
            given.fonts.resize(count, 5);
            given.originals.resize(count, 6);
            given.currents.resize(count, 7);
            given.touches.resize(count, 0);
            given.weak.resize(count, 0);
        }
        1..=5 => given.fonts.push(0),
        6..=10 => given.originals.push(0),
        11..=15 => given.currents.push(0),
        16..=20 => given.touches.push(0),
        21..=25 => given.weak.push(0),
        26..=28 => {
            let count = random.pick(&[EDGES - 1, EDGES, EDGES, EDGES + 1, 65_535]);
            edges.items.resize(count.min(EDGES), Edge::default());
            edges.count = count;
        }
        29..=32 => *edges = Table::of(Vec::new()),
        _ => {
            edges.items.truncate(1);
            edges.count = edges.items.len();
        }
    }
}

/// Hands on every table of up to four edges over three font positions, in any order; every one of seven to eleven edges over four that do not fall; pairs about as steep as may be; each
/// with a point at every font position; and every pair of marks of two points.
pub fn small<E>(hand_on: &mut impl FnMut(&Job) -> Result<(), E>) -> Result<(), E> {
    for count in 0..=4 {
        for fonts in lists(&[0, 2, 3], count) {
            hand_on(&table(&fonts, &[5, 9, 70, 71], -1..=4))?;
            hand_on(&table(&fonts, &[64, 0, 128, 63], -1..=4))?;
        }
    }
    for count in 7..=11 {
        let rises = |fonts: &Vec<i16>| fonts.windows(2).all(|pair| pair[0] <= pair[1]);
        for fonts in lists(&[0, 2, 4, 5], count).filter(rises) {
            hand_on(&table(&fonts, &[0, 10, 30, 31, 35], -1..=6))?;
        }
    }
    for span in 1..=4 {
        for beside in -1..=1 {
            let rise = 32_768 * i32::from(span) + beside;
            for (low, high) in [
                (0, rise),
                (rise, 0),
                (-rise, 0),
                (-16_777_216, rise - 16_777_216),
            ] {
                hand_on(&table(&[0, span], &[low, high], -1..=5))?;
                hand_on(&table(&[0, span], &[low, high], 0..=0))?;
            }
        }
    }
    for marks in lists(&[0, 1, 255], 4) {
        let Job::Strong(edges, mut given) = table(&[0, 2, 10], &[1, 40, 60], 1..=2) else {
            unreachable!("the table is one of strong points");
        };
        given.touches = marks[..2].to_vec();
        given.weak = marks[2..].to_vec();
        hand_on(&Job::Strong(edges, given))?;
    }
    Ok(())
}

/// Edges at font positions, which come to positions one after the other and over and over, with a point at each of these font positions.
fn table(fonts: &[i16], positions: &[i32], points: std::ops::RangeInclusive<i16>) -> Job {
    let edge = |(ix, fpos): (usize, &i16)| Edge {
        fpos: *fpos,
        opos: 2 * i32::from(*fpos),
        pos: positions[ix % positions.len()],
        ..Edge::default()
    };
    let fonts_of_points: Vec<i16> = points.collect();
    let count = fonts_of_points.len();
    let given = Strong {
        originals: fonts_of_points.iter().map(|f| 3 * i32::from(*f)).collect(),
        fonts: fonts_of_points,
        currents: vec![-9; count],
        touches: vec![0; count],
        weak: vec![0; count],
    };
    Job::Strong(
        Table::of(fonts.iter().enumerate().map(edge).collect()),
        given,
    )
}
