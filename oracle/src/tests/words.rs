//! The word form and its text.

use crate::{
    answer::answer_line,
    decode::decode,
    generate::{line, Random, PROFILES},
    job::CALLS,
    text,
    words::encode,
};

#[test]
fn jobs_come_back_from_their_words() {
    let mut random = Random::new(7);
    let mut jobs = 0;
    for (call, _) in CALLS {
        for (_, profile) in PROFILES {
            for _ in 0..200 {
                let line = line(*call, profile, &mut random);
                let words = text::parse(&line);
                if let Some((words, job)) = words.and_then(|w| decode(&w).map(|job| (w, job))) {
                    assert_eq!(encode(&job).values, words);
                    assert_eq!(text::write(&words).into_bytes(), line);
                    jobs += 1;
                }
            }
        }
    }
    assert!(jobs > 8_000);
}

#[test]
fn what_is_not_a_job() {
    let pair = "000000010000000300000004";
    assert_eq!(answer_line(pair.as_bytes()), "0000000000000003");
    let damaged = [
        String::new(),
        pair[..16].into(),
        pair[..23].into(),
        format!("{pair}00000000"),
        format!("{pair}\r"),
        pair.replace('4', "g"),
        "00000001000000030000000a".into(),
        pair.replacen('1', "0", 1),
        pair.replacen('1', "F", 1),
    ];
    for line in damaged {
        assert_eq!(answer_line(line.as_bytes()), "FFFFFFFF", "{line:?}");
    }
}

#[test]
fn lines_end_at_line_feeds() {
    assert_eq!(text::lines(b""), [b""; 0]);
    assert_eq!(text::lines(b"\n"), [b""]);
    assert_eq!(text::lines(b"A\n\nB"), [&b"A"[..], b"", b"B"]);
    assert_eq!(text::lines(b"A\nB\n"), [b"A", b"B"]);
}

#[test]
fn the_same_seed_makes_the_same_jobs() {
    for (_, profile) in PROFILES {
        let (mut a, mut b) = (Random::new(3), Random::new(3));
        for (call, _) in CALLS {
            assert_eq!(line(*call, profile, &mut a), line(*call, profile, &mut b));
        }
    }
}
