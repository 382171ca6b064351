//! Request #103's program: worked values, and slips that made-up logs show.

use crate::{
    generate::{log, Random},
    log::{refit, reply},
};

/// What the program prints for a log.
fn printed(log: &[u8]) -> Vec<u8> {
    let mut output = Vec::new();
    refit(log, &mut output).expect("a vector takes what is written");
    output
}

#[test]
fn the_example_is_answered() {
    let log = b"010301010000000500000A0063000014001402\n";
    assert_eq!(printed(log), b"810300000500000F000019\n");
}

#[test]
fn each_line_is_answered_once() {
    assert_eq!(printed(b""), b"");
    assert_eq!(printed(b"\n"), b"8206\n");
    assert_eq!(printed(b"\n\n"), b"8206\n8206\n");
    assert_eq!(printed(b"010000\n010000"), b"8100\n8206\n");
    assert_eq!(printed(b"010000\r\n010000\n"), b"8206\n8100\n");
    let mut long = vec![b'0'; 3_066];
    long.extend_from_slice(b"010000\n010000\n");
    assert_eq!(printed(&long), b"8206\n8100\n");
    assert_eq!(printed(&long[..3_072]), b"8206\n");
}

#[test]
fn answers_of_lines() {
    // no points and no contours; a contour without a point; a number beyond 16,383, and the one farthest from 0
    assert_eq!(reply(b"010000\n"), b"8100");
    assert_eq!(reply(b"01000100\n"), b"8203");
    assert_eq!(reply(b"010100004000C000\n"), b"8101FFC000");
    assert_eq!(reply(b"0101000080008000\n"), b"8101FF8000");
    assert_eq!(reply(b"01010100FFFBFFFB00\n"), b"8101FFFFFB");
    // 16,383, shifted by 32,766
    let shifted = b"01020101C0013FFF003FFF000001\n";
    assert_eq!(reply(shifted), b"8102003FFF00BFFD");
    // as far as a frame's results go: 32,767, shifted by 65,535, and -32,768 by as much the other way
    let far = b"0102010180007FFF007FFF000001\n";
    assert_eq!(reply(far), b"8102007FFF017FFE");
    let far = b"010201017FFF8000008000000001\n";
    assert_eq!(reply(far), b"8102FF8000FE8001");
}

/// Whether some made-up log is answered otherwise by a wrong program.
fn shows(wrong: impl Fn(&[u8]) -> Vec<u8>) -> bool {
    let mut random = Random::new(103);
    (0..400).any(|_| {
        let lines = random.below(12);
        let log = log(lines, &mut random);
        wrong(&log) != printed(&log)
    })
}

/// A program that changes each line before it is answered; where there is none left, it prints nothing.
fn lines_as(log: &[u8], change: impl Fn(&[u8]) -> Vec<Vec<u8>>) -> Vec<u8> {
    let lines = log.split_inclusive(|byte| *byte == b'\n').flat_map(change);
    let replies = lines.flat_map(|line| [reply(&line), b"\n".to_vec()].concat());
    replies.collect()
}

#[test]
fn slips_of_the_program() {
    let same = |line: &[u8]| vec![line.to_vec()];
    assert!(!shows(|log| lines_as(log, same)));
    // an over-long line answered in pieces of 3,066 digits
    assert!(shows(|log| lines_as(log, |line| line
        .chunks(3_066)
        .map(<[u8]>::to_vec)
        .collect())));
    // only the digits behind the 3,066th left out
    let cut = |line: &[u8]| [&line[..line.len().min(3_066)], b"\n"].concat();
    assert!(shows(|log| lines_as(log, |line| if line.len() > 3_067 {
        vec![cut(line)]
    } else {
        same(line)
    })));
    // the piece behind the 3,066th digit taken for a line
    assert!(shows(|log| lines_as(log, |line| {
        let rest = line.get(3_066..).filter(|rest| rest.len() > 1);
        vec![rest.unwrap_or(line).to_vec()]
    })));
    // a last line without a line feed answered as a job, or dropped
    assert!(shows(|log| printed(&[log, b"\n"].concat())));
    assert!(shows(|log| lines_as(log, |line| match line {
        [.., b'\n'] => same(line),
        _ => Vec::new(),
    })));
    // empty lines left out
    assert!(shows(|log| lines_as(log, |line| match line {
        b"\n" => Vec::new(),
        _ => same(line),
    })));
    // a carriage return taken off, lower case read
    assert!(shows(|log| lines_as(log, |line| match line {
        [digits @ .., b'\r', b'\n'] => vec![[digits, b"\n"].concat()],
        _ => same(line),
    })));
    assert!(shows(|log| lines_as(log, |line| vec![
        line.to_ascii_uppercase()
    ])));
    // empty input answered
    assert!(shows(|log| match log {
        b"" => b"8206\n".to_vec(),
        _ => printed(log),
    }));
}

/// A reply whose results have two bytes each.
fn narrowed(reply: &[u8]) -> Vec<u8> {
    match reply {
        [b'8', b'1', high, low, results @ ..] => {
            let narrow = results.chunks(6).flat_map(|digits| &digits[2..]);
            [b'8', b'1', *high, *low]
                .iter()
                .chain(narrow)
                .copied()
                .collect()
        }
        _ => reply.to_vec(),
    }
}

#[test]
fn slips_of_a_reply() {
    let replies_as = |log: &[u8], change: fn(&[u8]) -> Vec<u8>| -> Vec<u8> {
        let replies = printed(log);
        let lines = replies.split(|byte| *byte == b'\n').map(change);
        lines.collect::<Vec<_>>().join(&b'\n')
    };
    assert!(!shows(|log| replies_as(log, <[u8]>::to_vec)));
    assert!(shows(|log| replies_as(log, narrowed)));
    // a refusal by 3 answered as a broken frame
    assert!(shows(|log| replies_as(log, |reply| match reply {
        b"8203" => b"8206".to_vec(),
        _ => reply.to_vec(),
    })));
}
