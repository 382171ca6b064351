//! Every outline of few points, as jobs of remembered references and of dragging.

use crate::{
    job::{Job, Points, References},
    references::remembered,
};

/// The most points of which every outline is made, and the most of which every list.
const MOST: usize = 4;
const MOST_LISTED: usize = 2;

/// The marks of outlines without places.
const MARKS: [u8; 3] = [0, 1, 255];

/// The originals and currents of outlines over few places, and those of all others.
const ORIGINALS: [i32; 3] = [0, 1, 3];
const CURRENTS: [i32; 2] = [0, 4];
const PLACES: [(i32, i32); MOST] = [(3, 13), (0, 64), (3, -5), (7, 7)];

/// What jobs are handed on to.
type HandOn<'a, E> = &'a mut dyn FnMut(&Job) -> Result<(), E>;

/// Every list of a length over these values.
pub fn lists<T: Copy>(values: &[T], length: usize) -> impl Iterator<Item = Vec<T>> + '_ {
    let count = values.len();
    let list = move |number: usize| {
        let place = |ix: usize| values[number / count.pow(ix as u32) % count];
        (0..length).map(place).collect()
    };
    (0..count.pow(length as u32)).map(list)
}

/// The points of which these say that they end a contour.
fn ends(is_end: impl Iterator<Item = bool>) -> Vec<u16> {
    let ends = (0..).zip(is_end).filter(|(_, is_end)| *is_end);
    ends.map(|(ix, _)| ix).collect()
}

/// Every outline of so many points with every mark and every cut into contours: its marks and its ends.
pub fn marked(count: usize) -> impl Iterator<Item = (Vec<u8>, Vec<u16>)> {
    let points: Vec<(u8, bool)> = MARKS
        .iter()
        .flat_map(|mark| [(*mark, false), (*mark, true)])
        .collect();
    let outlines: Vec<_> = lists(&points, count).collect();
    outlines.into_iter().map(|points| {
        let marks = points.iter().map(|point| point.0).collect();
        (marks, ends(points.iter().map(|point| point.1)))
    })
}

/// Every outline of so many points over few places, touched or not, with every cut into contours.
pub fn placed(count: usize) -> impl Iterator<Item = Points> {
    const STATES: usize = ORIGINALS.len() * CURRENTS.len() * 4;
    let outline = move |number: usize| {
        let state = |ix: usize| number / STATES.pow(ix as u32) % STATES;
        let states = || (0..count).map(state);
        let is_touched = |ix: usize| state(ix) % 2 == 1;
        Points {
            originals: states().map(|state| ORIGINALS[state / 8]).collect(),
            currents: states().map(|state| CURRENTS[state / 4 % 2]).collect(),
            touches: (0..count)
                .map(|ix| u8::from(is_touched(ix)) * [1, 255][ix % 2])
                .collect(),
            ends: ends(states().map(|state| state / 2 % 2 == 1)),
        }
    };
    (0..STATES.pow(count as u32)).map(outline)
}

/// The numbers that stand in lists of so many points: those of points, one beyond, and those of the other cases and one below.
fn numbers(count: usize) -> Vec<u16> {
    let points = 0..=count as u16;
    points.chain(65_532..=65_535).collect()
}

/// Hands on jobs of call 18: outlines of every mark and cut with lists of every length up to one too many, and of few points with every list; and every list of up to
/// three contour ends.
pub fn remember<E>(hand_on: HandOn<'_, E>) -> Result<(), E> {
    let job = |touches: &[u8], ends: &[u16], before: &[u16], behind: &[u16]| {
        let (before, behind) = (before.to_vec(), behind.to_vec());
        Job::Remember(
            touches.to_vec(),
            ends.to_vec(),
            References { before, behind },
        )
    };
    for count in 0..=MOST {
        let zeros = vec![0; count + 1];
        for (touches, ends) in marked(count) {
            for lengths in 0..(count + 2).pow(2) {
                let (before, behind) = (lengths / (count + 2), lengths % (count + 2));
                hand_on(&job(&touches, &ends, &zeros[..before], &zeros[..behind]))?;
            }
            if count <= MOST_LISTED {
                for list in lists(&numbers(count), 2 * count) {
                    hand_on(&job(&touches, &ends, &list[..count], &list[count..]))?;
                }
            }
        }
        let places: Vec<u16> = (0..=count as u16).collect();
        for ends in (0..=3).flat_map(|contours| lists(&places, contours)) {
            for touches in lists(&MARKS, count) {
                hand_on(&job(&touches, &ends, &zeros[..count], &zeros[..count]))?;
            }
        }
    }
    Ok(())
}

/// Hands on jobs of call 19: every outline over few places with its list; of up to two points every list; of three and four points both numbers of every point, and every
/// list in the place of one beside the other as it is, of four for one mark.
pub fn align<E>(hand_on: HandOn<'_, E>) -> Result<(), E> {
    for count in 0..=MOST {
        for points in placed(count) {
            let list = remembered(&points.touches, &points.ends);
            hand_on(&Job::WithReferences(points, list))?;
        }
        for (touches, ends) in marked(count) {
            let points = Points {
                originals: PLACES[..count].iter().map(|place| place.0).collect(),
                currents: PLACES[..count].iter().map(|place| place.1).collect(),
                touches,
                ends,
            };
            with_lists(&points, hand_on)?;
        }
    }
    Ok(())
}

/// Hands on an outline with many lists.
fn with_lists<E>(points: &Points, hand_on: HandOn<'_, E>) -> Result<(), E> {
    let count = points.touches.len();
    let numbers = numbers(count);
    let right = remembered(&points.touches, &points.ends);
    let mut with = |before: Vec<u16>, behind: Vec<u16>| {
        let list = References { before, behind };
        hand_on(&Job::WithReferences(points.clone(), list))
    };
    if count <= MOST_LISTED {
        for list in lists(&numbers, 2 * count) {
            with(list[..count].to_vec(), list[count..].to_vec())?;
        }
        return Ok(());
    }
    for ix in 0..count {
        for pair in lists(&numbers, 2) {
            let mut list = right.clone();
            (list.before[ix], list.behind[ix]) = (pair[0], pair[1]);
            with(list.before, list.behind)?;
        }
    }
    if count == MOST && points.touches.contains(&255) {
        return Ok(());
    }
    for list in lists(&numbers, count) {
        with(list.clone(), right.behind.clone())?;
        with(right.before.clone(), list)?;
    }
    Ok(())
}

/// Hands on jobs of call 20: every outline over few places, with every point of it and one beyond.
pub fn drag<E>(hand_on: HandOn<'_, E>) -> Result<(), E> {
    for count in 0..=MOST {
        for points in placed(count) {
            for point in 0..=count as u16 {
                hand_on(&Job::Drag(points.clone(), point))?;
            }
        }
    }
    Ok(())
}
