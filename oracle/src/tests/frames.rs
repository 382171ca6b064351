//! Request #103's frames: worked values, both round trips, the refusals, and slips that made-up jobs show.

use crate::{
    decode::decode,
    frames::{hexadecimal, read_frame, write_frame},
    generate::{line, Random, PROFILES},
    job::{Job, Points},
    refusals::{self, frame_digits, Answer, Refusal, FRAME_DIGITS},
    text,
};

/// The request's example.
const EXAMPLE: &[u8] = b"010301010000000500000A0063000014001402";

/// The job of the request's example.
fn example() -> Points {
    Points {
        originals: vec![0, 10, 20],
        currents: vec![5, 99, 20],
        touches: vec![1, 0, 0],
        ends: vec![2],
    }
}

/// What writing into a line of so many places answers, and the line.
fn written(points: &Points, room: usize) -> (Answer<usize>, Vec<u8>) {
    let mut line = vec![b'x'; room];
    let answer = write_frame(points, &mut line);
    (answer, line)
}

#[test]
fn the_example_is_read_and_written() {
    assert_eq!(read_frame(EXAMPLE), Ok(example()));
    assert_eq!(written(&example(), 38), (Ok(38), EXAMPLE.to_vec()));
    let (answer, line) = written(&example(), 41);
    assert_eq!((answer, &line[..38]), (Ok(38), EXAMPLE));
    assert_eq!(&line[38..], b"xxx");
    assert_eq!(written(&example(), 37), (Err(Refusal(1)), vec![b'x'; 37]));
}

#[test]
fn numbers_are_two_signed_bytes_and_marks_are_kept() {
    let points = Points {
        originals: vec![-32_768, -5],
        currents: vec![32_767, 258],
        touches: vec![255, 2],
        ends: vec![255, 0],
    };
    let frame = b"010202FF80007FFF02FFFB0102FF00";
    assert_eq!(written(&points, 30), (Ok(30), frame.to_vec()));
    assert_eq!(read_frame(frame), Ok(points));
}

#[test]
fn the_smallest_and_the_longest_frame() {
    assert_eq!(read_frame(b"010000"), Ok(Points::none()));
    let mut points = Points {
        originals: vec![-1; 255],
        currents: vec![1; 255],
        touches: vec![0; 255],
        ends: vec![255; 255],
    };
    let (answer, mut line) = written(&points, 3_066);
    assert_eq!((answer, FRAME_DIGITS), (Ok(3_066), 3_066));
    assert_eq!(read_frame(&line), Ok(points.clone()));
    for more in [3_067, 3_068] {
        line.resize(more, b'0');
        assert_eq!(read_frame(&line), Err(Refusal(6)));
    }
    points.ends.push(255);
    assert_eq!(written(&points, 9_000).0, Err(Refusal(1)));
}

#[test]
fn what_is_no_whole_frame() {
    let damaged: [&[u8]; 14] = [
        b"",
        b"01",
        b"0100",
        b"01000",
        b"010000\r",
        b"010000\n",
        b" 010000",
        b"01000000",
        b"020000",
        b"810000",
        b"000000",
        b"010100",
        b"0100010",
        b"01000g",
    ];
    for line in damaged {
        assert_eq!(read_frame(line), Err(Refusal(6)), "{}", line.escape_ascii());
    }
    assert_eq!(read_frame(&EXAMPLE[..36]), Err(Refusal(6)));
    assert_eq!(
        read_frame(&EXAMPLE.to_ascii_lowercase()),
        Err(Refusal(6)),
        "a lower-case digit"
    );
}

#[test]
fn document_01_is_not_asked() {
    for line in [&b"01000100"[..], b"010100004000C000", b"01000205FF"] {
        let points = read_frame(line).expect("a whole frame");
        assert_eq!(
            written(&points, line.len()),
            (Ok(line.len()), line.to_vec())
        );
    }
}

#[test]
fn writing_refuses_in_order() {
    let mut points = Points {
        originals: vec![32_768],
        currents: vec![-32_769],
        touches: vec![],
        ends: vec![256],
    };
    let refused = |number, room, points: &Points| {
        let untouched = vec![b'x'; room];
        assert_eq!(written(points, room), (Err(Refusal(number)), untouched));
    };
    refused(1, 100, &points);
    points.touches.push(0);
    refused(1, 17, &points);
    refused(3, 18, &points);
    points.ends[0] = 255;
    refused(4, 18, &points);
    points.originals[0] = 32_767;
    refused(4, 18, &points);
    points.currents[0] = -32_768;
    assert_eq!(written(&points, 18).0, Ok(18));
}

/// Jobs of a call that were made up in every profile.
fn made_up(call: usize) -> Vec<Job> {
    let mut random = Random::new(103);
    let mut jobs = Vec::new();
    for (_, profile) in PROFILES {
        for _ in 0..1_000 {
            let words = text::parse(&line(call, profile, &mut random));
            jobs.extend(words.and_then(|words| decode(&words)));
        }
    }
    jobs
}

#[test]
fn reading_what_was_written_gives_the_job() {
    let mut done = 0;
    for job in made_up(25) {
        let Job::WriteFrame(points, mut line) = job else {
            continue;
        };
        if let Ok(digits) = write_frame(&points, &mut line) {
            assert_eq!(read_frame(&line[..digits]), Ok(points));
            done += 1;
        }
    }
    assert!(done > 1_500);
}

#[test]
fn writing_what_was_read_gives_the_line() {
    let mut done = 0;
    for job in made_up(26) {
        let Job::ReadFrame(line) = job else {
            continue;
        };
        if let Ok(points) = read_frame(&line) {
            assert_eq!(written(&points, line.len()), (Ok(line.len()), line));
            done += 1;
        }
    }
    assert!(done > 1_500);
}

/// Whether some made-up line is read otherwise by a wrong reader.
fn reading_shows(wrong: impl Fn(&[u8]) -> Answer<Points>) -> bool {
    made_up(26).iter().any(|job| match job {
        Job::ReadFrame(line) => wrong(line) != read_frame(line),
        _ => false,
    })
}

/// A reader that changes what it has read.
fn changed(line: &[u8], change: impl Fn(i32) -> i32) -> Answer<Points> {
    let mut points = read_frame(line)?;
    for list in [&mut points.originals, &mut points.currents] {
        list.iter_mut().for_each(|number| *number = change(*number));
    }
    Ok(points)
}

#[test]
fn slips_of_reading() {
    assert!(!reading_shows(read_frame));
    assert!(reading_shows(|line| read_frame(&line.to_ascii_uppercase())));
    assert!(reading_shows(|line| read_frame(line.trim_ascii_end())));
    assert!(reading_shows(|line| read_frame(&line[..line.len() & !1])));
    assert!(reading_shows(|line| read_frame(
        &[b"01", line.get(2..).unwrap_or(b"")].concat()
    )));
    assert!(reading_shows(|line| read_frame(
        &line[..line.len().min(3_066)]
    )));
    assert!(reading_shows(|line| changed(line, |n| n & 0xFFFF)));
    assert!(reading_shows(|line| changed(line, |n| i32::from(
        (n as i16).swap_bytes()
    ))));
    // digits left over
    assert!(reading_shows(|line| {
        let front = (0..=line.len()).find_map(|end| read_frame(&line[..end]).ok());
        front.ok_or(Refusal(6))
    }));
    // marks made 0 or 1
    assert!(reading_shows(|line| {
        let mut points = read_frame(line)?;
        points
            .touches
            .iter_mut()
            .for_each(|mark| *mark = (*mark).min(1));
        Ok(points)
    }));
    // document 01 asked
    assert!(reading_shows(|line| {
        let points = read_frame(line)?;
        refusals::weak(&points).map_err(|_| Refusal(6))?;
        Ok(points)
    }));
    // an end that is not below the points taken for a broken frame
    assert!(reading_shows(|line| {
        let points = read_frame(line)?;
        let fit = |end: &u16| usize::from(*end) < points.originals.len();
        if points.ends.iter().all(fit) {
            return Ok(points);
        }
        Err(Refusal(6))
    }));
}

/// Whether some made-up job is written otherwise by a wrong writer.
fn writing_shows(wrong: impl Fn(&Points, &mut [u8]) -> Answer<usize>) -> bool {
    made_up(25).into_iter().any(|job| match job {
        Job::WriteFrame(points, line) => {
            let (mut ours, mut theirs) = (line.clone(), line);
            let answer = write_frame(&points, &mut ours);
            wrong(&points, &mut theirs) != answer || ours != theirs
        }
        _ => false,
    })
}

/// Writes without a test of its own, cutting numbers to their bytes.
fn forced(points: &Points, line: &mut [u8]) -> Answer<usize> {
    let mut points = points.clone();
    points.ends.iter_mut().for_each(|end| *end &= 255);
    for list in [&mut points.originals, &mut points.currents] {
        list.iter_mut().for_each(|n| *n = i32::from(*n as i16));
    }
    write_frame(&points, line)
}

#[test]
fn slips_of_writing() {
    assert!(!writing_shows(write_frame));
    assert!(writing_shows(forced));
    // room for the line feed asked, too
    assert!(writing_shows(|points, line| {
        let digits = frame_digits(points.originals.len(), points.ends.len());
        if line.len() == digits {
            return Err(Refusal(1));
        }
        write_frame(points, line)
    }));
    // document 01's refusals, too
    assert!(writing_shows(|points, line| {
        refusals::weak(points)?;
        write_frame(points, line)
    }));
    // 4 in front of 3
    assert!(writing_shows(|points, line| {
        let no_ends = Points {
            ends: vec![0; points.ends.len()],
            ..points.clone()
        };
        write_frame(&no_ends, &mut line.to_vec())?;
        write_frame(points, line)
    }));
    // 3 in front of 1
    assert!(writing_shows(|points, line| {
        if points.ends.iter().any(|end| *end > 255) {
            return Err(Refusal(3));
        }
        write_frame(points, line)
    }));
    // -32,768 refused
    assert!(writing_shows(|points, line| {
        let numbers = || points.originals.iter().chain(&points.currents);
        write_frame(points, &mut line.to_vec())?;
        if numbers().any(|n| *n == -32_768) {
            return Err(Refusal(4));
        }
        write_frame(points, line)
    }));
    // the rest of the line emptied
    assert!(writing_shows(|points, line| {
        let digits = write_frame(points, line)?;
        line[digits..].fill(0);
        Ok(digits)
    }));
    // a line feed behind the digits
    assert!(writing_shows(|points, line| {
        let digits = write_frame(points, line)?;
        if let Some(place) = line.get_mut(digits) {
            *place = b'\n';
        }
        Ok(digits)
    }));
    // lower-case digits
    assert!(writing_shows(|points, line| {
        let digits = write_frame(points, line)?;
        line[..digits].make_ascii_lowercase();
        Ok(digits)
    }));
}

#[test]
fn digits_of_bytes() {
    assert_eq!(hexadecimal(&[0x01, 0x9A, 0xF0]), b"019AF0");
}
