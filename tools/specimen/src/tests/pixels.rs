//! The fill held to the oracle's picture, pixel by pixel, and pieces less holes to the library's count.

use crate::{chain::steps, fill::fill, pieces::Parts};
use khsaemudol::{count_shown, Outline};
use oracle::{
    decode::decode,
    generate::{line, shown::small, Random, PROFILES},
    job::{Job, Walk},
    shown::Picture,
    text,
};
use std::convert::Infallible;

/// Asserts that an outline has the oracle's pixels at so many times its size, if it is one that the library counts; whether it is.
fn assert_same(walk: &Walk, magnify: i32) -> bool {
    let outline = Outline {
        xs: &walk.xs,
        ys: &walk.ys,
        marks: &walk.marks,
        ends: &walk.ends,
    };
    let Ok(shown) = count_shown(&outline, magnify) else {
        return false;
    };
    let path =
        steps(&walk.marks, &walk.ends, &walk.xs, &walk.ys).expect("what is counted has a path");
    let (bitmap, picture) = (fill(&path, magnify), Picture::of(walk, magnify));
    let count = Parts::of(&bitmap).count();
    assert_eq!(shown.euler, count.pieces as i32 - count.holes as i32);
    let black = |(x, y): &(i32, i32)| bitmap.is_black(*x, *y);
    let ours = bitmap.pixels().filter(black);
    let ours = ours.map(|(x, y)| (i64::from(x), i64::from(y)));
    let places = (0..).zip(&picture.pixels).filter(|(_, black)| **black);
    let width = picture.width as i64;
    let theirs = places.map(|(at, _)| (picture.left + at % width, picture.bottom + at / width));
    assert!(ours.eq(theirs), "{walk:?} at {magnify} times its size");
    true
}

#[test]
fn made_up_outlines_have_the_pixels_of_the_definition() {
    let mut random = Random::new(132);
    let mut same = 0;
    for (_, profile) in PROFILES {
        for _ in 0..5_000 {
            let words = text::parse(&line(132, profile, &mut random));
            if let Some(Job::Shown(walk, magnify)) = words.and_then(|words| decode(&words)) {
                same += u32::from(assert_same(&walk, magnify));
            }
        }
    }
    assert!(same > 12_000, "{same}");
}

#[test]
fn small_outlines_have_the_pixels_of_the_definition() {
    let never: Result<(), Infallible> = small(&mut |job| {
        if let Job::Shown(walk, magnify) = job {
            assert!(assert_same(walk, *magnify));
        }
        Ok(())
    });
    let Ok(()) = never;
}
