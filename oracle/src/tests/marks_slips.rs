//! Marks on made-up jobs: what they never do, and slips that such jobs show.

use super::job_of;
use crate::{
    answer::answer,
    decode::decode,
    generate::{line, Random, PROFILES},
    job::{Job, Mark},
    words::{encode, Words},
};
use Mark::*;

/// The calls that write edges, with the marks that each gives.
const GIVEN: [(usize, &[Mark]); 9] = [
    (106, &[BlueAnchor, Blue, Linked]),
    (107, &[Linked]),
    (108, &[Serif]),
    (109, &[Bound]),
    (111, &[Stem]),
    (112, &[Linked, Anchor, Stem, Adjusted, Bound]),
    (113, &[LowercaseM]),
    (114, &[LowercaseM]),
    (
        122,
        &[BlueAnchor, Blue, Linked, Anchor, Stem, Adjusted, Bound],
    ),
];

/// The flag of an edge that is done.
const DONE: i32 = 4;

/// Jobs of a call that were made up in every profile.
fn made_up(call: usize) -> Vec<Job> {
    let mut random = Random::new(105);
    let lines = PROFILES.iter().flat_map(|(_, profile)| [*profile; 1_000]);
    lines
        .filter_map(|profile| job_of(&line(call, profile, &mut random)))
        .filter(|job| encode(job).values[0] == call as i32)
        .collect()
}

/// The values of a field, edge by edge.
fn column(words: &Words, name: &str) -> Vec<i32> {
    let fields = words.names.iter().zip(&words.values);
    fields.filter(|f| *f.0 == name).map(|f| *f.1).collect()
}

/// The marks of edges.
fn marks(words: &Words) -> Vec<i32> {
    column(words, "edge.mark")
}

/// The words with every mark erased.
fn unmarked(words: &Words) -> Vec<i32> {
    let fields = words.names.iter().zip(&words.values);
    fields
        .map(|(name, value)| if *name == "edge.mark" { 0 } else { *value })
        .collect()
}

/// The answer to a job whose marks were erased.
fn answer_unmarked(job: &Words) -> Words {
    answer(decode(&unmarked(job)).expect("0 is a mark"))
}

#[test]
fn no_rule_reads_a_mark() {
    for call in (105..=114).chain([122, 124, 127]) {
        for job in made_up(call) {
            let words = encode(&job);
            assert_eq!(unmarked(&answer(job)), unmarked(&answer_unmarked(&words)));
        }
    }
}

#[test]
fn an_edge_keeps_its_mark_and_position_or_is_given_both() {
    for (call, expected) in GIVEN {
        let mut seen = [false; Mark::ALL.len()];
        for job in made_up(call) {
            let words = encode(&job);
            let (given, left) = (marks(&answer_unmarked(&words)), answer(job));
            let before = [marks(&words), column(&words, "edge.pos")];
            let after = [marks(&left), column(&left, "edge.pos")];
            let flags = column(&words, "edge.flags");
            for (ix, mark) in given.into_iter().enumerate() {
                seen[mark as usize] = true;
                assert_eq!(after[0][ix], if mark == 0 { before[0][ix] } else { mark });
                // the request's exception: an edge already done, put on its zone
                let on_zone = [106, 122].contains(&call) && flags[ix] & DONE != 0;
                assert!(mark != 0 || on_zone || after[1][ix] == before[1][ix]);
            }
        }
        let seen = Mark::ALL.into_iter().filter(|mark| seen[*mark as usize]);
        let expected = [&[Nothing], expected].concat();
        assert_eq!(seen.collect::<Vec<_>>(), expected, "call {call}");
    }
}

/// Whether some made-up job is marked otherwise by a wrong recorder, which changes what the right one left.
fn marking_shows(call: usize, wrong: impl Fn(&Words, &Words, &mut [i32])) -> bool {
    made_up(call).into_iter().any(|job| {
        let words = encode(&job);
        let left = answer(job);
        let mut other = marks(&left);
        wrong(&words, &left, &mut other);
        left.values[0] == 0 && other != marks(&left)
    })
}

/// A number behind the edges of a job or an answer, such as a named edge.
fn named(words: &Words, name: &str) -> usize {
    column(words, name)[0] as usize
}

#[test]
fn slips_of_blues_and_links() {
    assert!(!marking_shows(106, |_, _, _| {}));
    // the anchor marked instead of the edge on the zone
    assert!(marking_shows(106, |_, left, marks| {
        let anchor = column(left, "anchor")[0];
        if let Some(mark) = marks.get_mut(anchor as usize) {
            *mark = BlueAnchor as i32;
        }
    }));
    // every zone's edge a blue anchor
    assert!(marking_shows(106, |_, _, marks| for mark in marks {
        if *mark == Blue as i32 {
            *mark = BlueAnchor as i32;
        }
    }));
    // a done edge's mark overwritten on its zone
    assert!(marking_shows(106, |job, left, marks| {
        let (before, after) = (column(job, "edge.pos"), column(left, "edge.pos"));
        let given = column(&answer_unmarked(job), "edge.mark");
        for ix in (0..marks.len()).filter(|ix| given[*ix] == 0 && before[*ix] != after[*ix]) {
            marks[ix] = Blue as i32;
        }
    }));
    // the base marked instead of the linked edge
    assert!(marking_shows(107, |job, _, marks| {
        marks[named(job, "base edge")] = Linked as i32;
    }));
    // bound where nothing moved
    assert!(marking_shows(109, |job, _, marks| {
        marks[named(job, "edge")] = Bound as i32;
    }));
}

#[test]
fn slips_of_stems_and_the_m() {
    // the second edge of a CJK stem left as it was
    assert!(marking_shows(111, |job, _, marks| {
        let second = named(job, "second edge");
        marks[second] = column(job, "edge.mark")[second];
    }));
    // what a bound moved taken for adjusted, and an anchor's partner for linked
    for (right, slip) in [(Bound, Adjusted), (Adjusted, Linked), (Linked, Stem)] {
        assert!(marking_shows(112, |_, _, marks| for mark in marks {
            if *mark == right as i32 {
                *mark = slip as i32;
            }
        }));
    }
    // edges 8 and 11 of the m left as they were, or what it moved by 0
    for call in [113, 114] {
        assert!(marking_shows(call, |job, _, marks| for ix in [8, 11] {
            if marks.len() == 12 {
                marks[ix] = column(job, "edge.mark")[ix];
            }
        }));
        assert!(marking_shows(call, |job, left, marks| {
            if column(job, "edge.pos") == column(left, "edge.pos") {
                marks.copy_from_slice(&column(job, "edge.mark"));
            }
        }));
    }
    // marks left at their places when an axis is turned over
    assert!(marking_shows(124, |job, _, marks| {
        marks.copy_from_slice(&column(job, "edge.mark"));
    }));
}
