//! Outlines whose pixels are counted.

use super::{limits, path, Random};
use crate::{
    job::{Job, Walk},
    limits::{COORDINATE, MAGNIFY, POINTS},
};

/// The side of a pixel, and where its centre is.
const PIXEL: i32 = 64;
const CENTRE: i32 = 32;

/// A job: outlines of any points, of boxes, or of rings, that are within the limits when they are magnified.
pub fn job(small: bool, random: &mut Random) -> Job {
    let magnify = match random.below(6) {
        0..=2 => 1,
        3 => random.pick(&[2, 3, 16]),
        4 => random.between(*MAGNIFY.start(), *MAGNIFY.end()),
        _ => *MAGNIFY.end(),
    };
    let most = *COORDINATE.end() / magnify;
    // A picture of more than a few hundred pixels a side takes its time: seldom.
    let span = match random.below(400) {
        0 if !small => most,
        1..=10 if !small => most / 8,
        _ if small => (random.pick(&[64, 128, 256]) / magnify).max(random.pick(&[1, 4, 16])),
        _ => (random.pick(&[500, 1_000, 2_000, 4_000]) / magnify).max(random.pick(&[1, 64])),
    };
    let half = (CENTRE / magnify).max(1);
    if magnify == 1 && random.once_in(6) {
        let walk = if random.coin() {
            grazing(span, random)
        } else {
            leaning(random)
        };
        return Job::Shown(walk, magnify);
    }
    let mut walk = match random.below(4) {
        0 => boxes(span, half, small, random),
        1 => rings(span, small, random),
        _ => any(span, half, small, random),
    };
    if random.once_in(4) {
        push_aside(&mut walk, most, random);
    }
    Job::Shown(walk, magnify)
}

/// An outline of any points, half of them on the grid of centres and corners, or one unit beside it.
fn any(span: i32, half: i32, small: bool, random: &mut Random) -> Walk {
    let mut walk = path::walk(small, random);
    let on_grid = random.coin();
    for coordinate in walk.xs.iter_mut().chain(&mut walk.ys) {
        *coordinate = if on_grid {
            on_the_grid(span, half, random)
        } else {
            random.between(-span, span)
        };
    }
    walk
}

/// A coordinate through a centre or between pixels, now and then one unit beside it.
fn on_the_grid(span: i32, half: i32, random: &mut Random) -> i32 {
    let steps = span / half;
    let beside = random.pick(&[0, 0, 0, 0, -1, 1]);
    (random.between(-steps, steps) * half + beside).clamp(-span, span)
}

/// Boxes of whole pixels, or nearly, that meet at sides and corners, lie in one another and go either way.
fn boxes(span: i32, half: i32, small: bool, random: &mut Random) -> Walk {
    let mut walk = empty();
    let side = (2 * half).min(span);
    let columns = span / side;
    let far = if small { 4 } else { 10 }.min(columns);
    for _ in 0..random.below(if small { 5 } else { 12 }) + 1 {
        let (left, low) = (random.between(-far, far - 1), random.between(-far, far - 1));
        let (right, high) = (random.between(left + 1, far), random.between(low + 1, far));
        let shift = random.pick(&[0, 0, 0, half]);
        let place = |at: i32| (at * side + shift).clamp(-span, span);
        let corners = [(left, low), (right, low), (right, high), (left, high)];
        let mut corners = corners.map(|(x, y)| (place(x), place(y)));
        if random.coin() {
            corners.reverse();
        }
        corners.rotate_left(random.below(4));
        append(&mut walk, &corners, || 1);
    }
    walk
}

/// Round shapes in one another, as letters have them: points around a middle, of which every second one, or any, is off the curve.
fn rings(span: i32, small: bool, random: &mut Random) -> Walk {
    let mut walk = empty();
    for _ in 0..random.below(4) + 1 {
        let radius = random.between(span / 8, span / 2);
        let middle = [0; 2].map(|_| random.between(radius - span, span - radius));
        let count = if small { 2 } else { random.below(5) + 2 };
        let mut ring: Vec<(i32, i32)> = Vec::new();
        // Places around a square, which is round enough behind curves.
        for (x, y) in [(1, 0), (0, 1), (-1, 0), (0, -1)] {
            for step in 0..count as i32 {
                let part = |a: i32, b: i32| {
                    (i64::from(radius) * i64::from(a * (count as i32 - step) + b * step)
                        / count as i64) as i32
                };
                ring.push((middle[0] + part(x, -y), middle[1] + part(y, x)));
            }
        }
        if random.coin() {
            ring.reverse();
        }
        let every = random.pick(&[1, 2, 2, 3]);
        let mut ix = 0;
        append(&mut walk, &ring, || {
            ix += 1;
            u8::from(ix % every == 0)
        });
    }
    walk
}

/// A contour off the curve that is moved so that a place at which one of its curves is cut is on a row or column of centres, or one 512th of a unit beside it, where such a one is found.
fn grazing(span: i32, random: &mut Random) -> Walk {
    let mut walk = empty();
    let points = random.below(4) + 2;
    let any = |random: &mut Random| random.between(-span, span);
    for _ in 0..20 {
        walk = empty();
        let places: Vec<(i32, i32)> = (0..points).map(|_| (any(random), any(random))).collect();
        append(&mut walk, &places, || 0);
        let upright = random.coin();
        let coordinates = if upright { &mut walk.ys } else { &mut walk.xs };
        if let Some(by) = to_a_centre(coordinates, random) {
            for coordinate in coordinates {
                *coordinate += by;
            }
            break;
        }
    }
    walk
}

/// A box whose sides lean by one unit over some pixels, so that they cross rows of centres less than a 512th of a unit beside centres.
fn leaning(random: &mut Random) -> Walk {
    let mut walk = empty();
    let centre = |random: &mut Random| random.between(-4, 4) * PIXEL + CENTRE;
    let [left, low] = [0; 2].map(|_| centre(random) + random.pick(&[-1, 0, 0, 1]));
    let (wide, tall) = (random.between(10, 200), random.between(300, 1_200));
    let lean = random.pick(&[-1, 1]);
    let (right, high) = (left + wide, low + tall);
    let mut corners = [
        (left, low),
        (right, low),
        (right + lean, high),
        (left + lean, high),
    ];
    if random.coin() {
        corners.reverse();
    }
    append(&mut walk, &corners, || 1);
    walk
}

/// How far coordinates of points off the curve have to be moved so that a cut is at a centre or one 512th beside it, where some distance does that.
fn to_a_centre(coordinates: &[i32], random: &mut Random) -> Option<i32> {
    let count = coordinates.len();
    let at = |ix: usize| coordinates[ix % count];
    let (curve, beside) = (random.below(count), random.pick(&[-1, 0, 1]));
    let start = at(curve) + at(curve + 1);
    let (control, end) = (2 * at(curve + 1), at(curve + 1) + at(curve + 2));
    (1..16).find_map(|cut| {
        let left = 16 - cut;
        let place = left * left * start + 2 * left * cut * control + cut * cut * end - beside;
        let units = (place % 512 == 0).then_some(place / 512)?;
        Some((CENTRE - units).rem_euclid(PIXEL))
    })
}

/// Moves an outline by pixels, or by any distance, as far as its bounds allow.
fn push_aside(walk: &mut Walk, most: i32, random: &mut Random) {
    let whole = random.coin();
    for coordinates in [&mut walk.xs, &mut walk.ys] {
        let (Some(least), Some(greatest)) = (coordinates.iter().min(), coordinates.iter().max())
        else {
            return;
        };
        let (back, forth) = (-most - least, most - greatest);
        let between = random.between(back, forth);
        let mut by = random.pick(&[back, forth, between]);
        if whole {
            by = by / PIXEL * PIXEL;
        }
        for coordinate in coordinates {
            *coordinate += by;
        }
    }
}

/// An outline of no points.
fn empty() -> Walk {
    Walk {
        xs: Vec::new(),
        ys: Vec::new(),
        marks: Vec::new(),
        ends: Vec::new(),
    }
}

/// Adds a contour.
fn append(walk: &mut Walk, places: &[(i32, i32)], mut mark: impl FnMut() -> u8) {
    for (x, y) in places {
        walk.xs.push(*x);
        walk.ys.push(*y);
        walk.marks.push(mark());
    }
    walk.ends.push(walk.xs.len() as u16 - 1);
}

/// Makes the lists long or unlike, breaks the contour ends' rule, puts coordinates at the limits, or magnifies by a number at or beyond its own.
pub fn resize(walk: &mut Walk, magnify: &mut i32, random: &mut Random) {
    match random.below(60) {
        0 => *walk = wound(random),
        1..=25 => limits::resize_walk(walk, random),
        _ => far_aside(walk, magnify, random),
    }
    if random.once_in(6) {
        *magnify = times(random);
    }
}

/// How many times an outline is magnified: at the limits and beyond.
pub fn times(random: &mut Random) -> i32 {
    random.pick(&[0, 1, 64, 65, -1, i32::MIN, i32::MAX])
}

/// As many points as may be that go around a pixel or two again and again, in one contour or each time in one of its own.
fn wound(random: &mut Random) -> Walk {
    let mut walk = empty();
    let corners = [(0, 0), (96, 0), (96, 96), (0, 96)];
    let mark = random.pick(&[0, 1]);
    while walk.xs.len() < POINTS {
        append(&mut walk, &corners, || mark);
    }
    if random.coin() {
        walk.ends = vec![POINTS as u16 - 1];
    }
    walk
}

/// Puts coordinates at the limits for how many times they are magnified, seldom over all that is between them, and one of them now and then beyond.
fn far_aside(walk: &mut Walk, magnify: &mut i32, random: &mut Random) {
    *magnify = random.pick(&[1, 1, 2, 3, 16, 63, 64]);
    let most = *COORDINATE.end() / *magnify;
    let beyond = random.once_in(4);
    for coordinates in [&mut walk.xs, &mut walk.ys] {
        let far = if random.once_in(16) { 2 * most } else { 40 };
        let sign = random.pick(&[-1, 1]);
        for coordinate in coordinates.iter_mut() {
            *coordinate = sign * (most - random.below(far as usize) as i32);
        }
        if beyond && random.coin() && !coordinates.is_empty() {
            let ix = random.below(coordinates.len());
            coordinates[ix] = sign * (most + 1);
        }
    }
}

/// Hands on an outline of every one to four points over three places a way, centres and none, on the curve or off it, and every picture of 4 by 4 pixels.
pub fn small<E>(hand_on: &mut impl FnMut(&Job) -> Result<(), E>) -> Result<(), E> {
    const PLACES: [i32; 3] = [0, CENTRE, PIXEL + CENTRE];
    for count in 1..=4u32 {
        for places in 0..9usize.pow(count) {
            let places: Vec<(i32, i32)> = (0..count)
                .map(|ix| places / 9usize.pow(ix))
                .map(|place| (PLACES[place % 3], PLACES[place / 3 % 3]))
                .collect();
            for pattern in 0..1 << count {
                let mut marks = (0..count).map(|ix| (pattern >> ix & 1) as u8);
                let mut walk = empty();
                append(&mut walk, &places, || {
                    marks.next().expect("a mark for each place")
                });
                hand_on(&Job::Shown(walk, 1))?;
            }
        }
    }
    (0..1 << 16).try_for_each(|picture| hand_on(&Job::Shown(picture_of(picture), 1)))
}

/// The outline of a picture of 4 by 4 pixels, the bits of a number: a box for each pixel.
pub fn picture_of(picture: u32) -> Walk {
    let mut walk = empty();
    for ix in (0..16).filter(|ix| picture >> ix & 1 == 1) {
        let (left, low) = (ix % 4 * PIXEL, ix / 4 * PIXEL);
        let (right, high) = (left + PIXEL, low + PIXEL);
        append(
            &mut walk,
            &[(left, low), (right, low), (right, high), (left, high)],
            || 1,
        );
    }
    walk
}
