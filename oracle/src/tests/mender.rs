//! Request #107's program: worked lines, and slips that made-up files show.

use super::segment;
use crate::{
    generate::{file, Random},
    job::{Edge, Job, Segment, Table},
    mender::run,
    text,
    words::encode,
};

/// What the program prints for a file: what it alters, or the axes.
fn printed(file: &[u8], axes: bool) -> String {
    let mut output = Vec::new();
    run(file, &mut output, axes).expect("a vector takes what is written");
    String::from_utf8_lossy(&output).into_owned()
}

/// The line of an axis with these edge and next indices, without its line feed.
fn line(segments: &[(Option<u16>, Option<u16>)], ends: &[(u16, u16)]) -> String {
    let segment = |(edge_ix, edge_next_ix): &(Option<u16>, Option<u16>)| Segment {
        edge_ix: *edge_ix,
        edge_next_ix: *edge_next_ix,
        ..segment(0)
    };
    let edge = |(first_ix, last_ix): &(u16, u16)| Edge {
        first_ix: *first_ix,
        last_ix: *last_ix,
        ..Edge::default()
    };
    let segments = Table::of(segments.iter().map(segment).collect());
    let edges = Table::of(ends.iter().map(edge).collect());
    text::write(&encode(&Job::Mend(segments, edges)).values)
}

#[test]
fn each_line_is_told_of() {
    let broken = line(&[(Some(0), None), (Some(0), Some(0))], &[(600, 1)]);
    let sound = line(&[(Some(0), Some(0))], &[(0, 0)]);
    let empty = line(&[(Some(0), Some(0))], &[(0, 0), (0, 0), (0, 0)]);
    let beyond = line(&[(Some(3), Some(0))], &[(0, 0)]);
    let log = format!("{broken}\n{sound}\n{empty}\n\n{beyond}\n{sound}\r\n{sound}");
    assert_eq!(
        printed(log.as_bytes(), false),
        "1: segment 0 next none -> 1\n1: edge 0 first 600 -> 0\n2: nothing to mend\n\
         3: refused by 7, edge 1 has no segments\n4: not an axis\n5: refused by 3\n6: not an axis\n7: nothing to mend\n"
    );
    let mended = line(&[(Some(0), Some(1)), (Some(0), Some(0))], &[(0, 1)]);
    assert_eq!(
        printed(log.as_bytes(), true),
        format!("{mended}\n{sound}\n{empty}\n\n{beyond}\n{sound}\r\n{sound}\n")
    );
    assert_eq!(printed(b"", false) + &printed(b"", true), "");
}

#[test]
fn the_axes_take_the_place_of_the_file() {
    let mut random = Random::new(107);
    for _ in 0..300 {
        let file = file(random.below(12), &mut random);
        let mut mended = Vec::new();
        assert!(run(file.as_slice(), &mut mended, true).is_ok());
        // nothing is left to mend, and the axes stay as they are
        let told = printed(&mended, false);
        assert!(!told.contains("->"));
        let mut twice = Vec::new();
        assert!(run(mended.as_slice(), &mut twice, true).is_ok());
        assert_eq!(mended, twice);
        let untouched = |told: &str| told.ends_with("axis") || told.contains("refused");
        let lines = |bytes: &[u8]| text::lines(bytes).into_iter().map(<[u8]>::to_vec).collect();
        let (old, new): (Vec<Vec<u8>>, Vec<Vec<u8>>) = (lines(&file), lines(&mended));
        assert_eq!((old.len(), told.lines().count()), (new.len(), new.len()));
        for (told, (old, new)) in told.lines().zip(old.iter().zip(&new)) {
            assert!(!untouched(told) || old == new);
        }
    }
}

/// Whether some made-up file is answered otherwise by a wrong program.
fn shows(wrong: impl Fn(&[u8]) -> Vec<u8>) -> bool {
    let mut random = Random::new(7);
    (0..300).any(|_| {
        let file = file(random.below(12), &mut random);
        wrong(&file) != printed(&file, false).into_bytes()
    })
}

/// A program that changes each line before it is read.
fn lines_as(file: &[u8], change: impl Fn(&[u8]) -> Vec<u8>) -> Vec<u8> {
    let lines = file.split_inclusive(|byte| *byte == b'\n').map(change);
    printed(&lines.collect::<Vec<_>>().concat(), false).into_bytes()
}

#[test]
fn slips_of_the_program() {
    assert!(!shows(|file| lines_as(file, <[u8]>::to_vec)));
    // only the digits behind the longest axis left out, or what is behind them taken for a line
    const LONGEST: usize = 73_752;
    assert!(shows(|file| lines_as(file, |line| {
        match line.len() > LONGEST + 1 {
            true => [&line[..LONGEST], b"\n"].concat(),
            false => line.to_vec(),
        }
    })));
    assert!(shows(|file| lines_as(file, |line| {
        let rest = line.get(LONGEST..).filter(|rest| rest.len() > 1);
        rest.unwrap_or(line).to_vec()
    })));
    // an empty line left out, a carriage return taken off, lower case read, a last line without a line feed dropped
    assert!(shows(|file| lines_as(file, |line| match line {
        b"\n" => Vec::new(),
        _ => line.to_vec(),
    })));
    assert!(shows(|file| lines_as(file, |line| match line {
        [digits @ .., b'\r', b'\n'] => [digits, b"\n"].concat(),
        _ => line.to_vec(),
    })));
    assert!(shows(|file| lines_as(file, <[u8]>::to_ascii_uppercase)));
    assert!(shows(|file| lines_as(file, |line| match line {
        [.., b'\n'] => line.to_vec(),
        _ => Vec::new(),
    })));
    // lines counted from 0, or those alone that are axes
    assert!(shows(|file| {
        let printed = printed(file, false);
        let less = printed.lines().map(|line| {
            let (number, told) = line.split_once(':').expect("a line has its number");
            let number: u64 = number.parse().expect("a number");
            format!("{}:{told}\n", number - 1)
        });
        less.collect::<String>().into_bytes()
    }));
    // an axis of another call read
    assert!(shows(|file| lines_as(file, |line| {
        let mut line = line.to_vec();
        if line.len() > 8 {
            line[..8].copy_from_slice(b"00000079");
        }
        line
    })));
}
