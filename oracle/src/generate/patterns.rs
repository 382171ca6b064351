//! Every pattern of on-curve marks, as jobs of the path.

use crate::{
    calls,
    job::{Job, Walk},
};

/// The longest contour of which every pattern is made.
const LONGEST: usize = 12;

/// Hands on a path for every pattern of marks up to the longest, as the first contour and as the second: whole, or step by step to the end and one beyond.
pub fn jobs<E>(step: bool, hand_on: &mut impl FnMut(&Job) -> Result<(), E>) -> Result<(), E> {
    for length in 1..=LONGEST {
        for pattern in 0..1 << length {
            for second in [false, true] {
                let walk = walk(length, pattern, second);
                if step {
                    steps(walk, hand_on)?;
                } else {
                    hand_on(&Job::Path(walk))?;
                }
            }
        }
    }
    Ok(())
}

/// Hands on every cursor of a path, that of its end and one beyond.
fn steps<E>(walk: Walk, hand_on: &mut impl FnMut(&Job) -> Result<(), E>) -> Result<(), E> {
    let count = calls::path(&walk).map_or(0, |steps| steps.len() as u32);
    for cursor in 0..=count + 1 {
        hand_on(&Job::PathStep(walk.clone(), cursor))?;
    }
    Ok(())
}

/// The outline of a pattern, another contour of an off-curve and an on-curve point, and a point of no contour.
///
/// The coordinates are powers of -2, so that no two places or halfway points are the same.
fn walk(length: usize, pattern: u32, second: bool) -> Walk {
    let pattern = (0..length).map(|ix| (pattern >> ix & 1) as u8);
    let (marks, ends): (Vec<u8>, _) = if second {
        ([0, 1].into_iter().chain(pattern).collect(), [1, length + 1])
    } else {
        (pattern.chain([0, 1]).collect(), [length - 1, length + 1])
    };
    let marks: Vec<u8> = marks.into_iter().chain([1]).collect();
    let count = marks.len() as u32;
    Walk {
        xs: (0..count).map(|ix| (-2i32).pow(ix)).collect(),
        ys: (0..count).map(|ix| (-2i32).pow(count - 1 - ix)).collect(),
        marks,
        ends: ends.iter().map(|end| *end as u16).collect(),
    }
}
