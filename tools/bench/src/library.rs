//! Job lines answered by the library's functions, each by its own call; `jobs` answers those alone whose call the wrapper does not have.

use crate::{
    one_call,
    port::{self, Beside, Call, Prepared, NO_PAIR},
    records,
};
use khsaemudol::{PathStep, Refusal, EDGE_WORDS, SEGMENT_WORDS};
use oracle::{
    answer::NOT_A_JOB,
    decode,
    job::Job,
    limits::{EDGES, SEGMENTS},
};

/// The word of the m rule's call on a lent list, which is handed back whole.
const LENT_M: i32 = 114;

/// The answer to a word list.
pub fn answer(words: &[i32]) -> Vec<i32> {
    let Some(job) = decode::decode(words) else {
        return vec![NOT_A_JOB];
    };
    if matches!(
        job,
        Job::Remember(..)
            | Job::WithReferences(..)
            | Job::Drag(..)
            | Job::Mend(..)
            | Job::Pack(..)
            | Job::TurnOver(..)
            | Job::WriteFrame(..)
            | Job::ReadFrame(..)
    ) {
        return port::answer(words);
    }
    // The library's building has no old table: what a refusal hands back is the job's, and a table that is too long is refused here.
    let old = match &job {
        Job::Build(_, old, _) => old.count,
        _ => 0,
    };
    // And the wrapper has no list of answers: one that is not as long as the counts is refused here too.
    let unequal =
        matches!(&job, Job::Catalogue(given) if given.answers.len() != given.point_counts.len());
    let old_words = old_table(&job, words);
    let mut prepared = Prepared::new(job, words);
    prepared.restore();
    let result = if old > EDGES || unequal {
        Err(1)
    } else {
        prepared.run().map_err(|refusal| refusal.number())
    };
    let mut answer = vec![result.err().map_or(0, i32::from)];
    let done = result.ok();
    match &prepared {
        Prepared::Middle(..) => answer.push(done.map_or(0, |[value, ..]| value)),
        Prepared::Weak(_, currents) => {
            answer.push(currents.len() as i32);
            answer.extend(currents);
        }
        Prepared::Catalogue(given, currents, answers) => {
            answer.push(currents.len() as i32);
            answer.extend(currents);
            answer.push(given.answers.len() as i32);
            if done.is_some() {
                let number = |answer: &Result<(), Refusal>| answer.err().map_or(0, Refusal::number);
                answer.extend(answers.iter().map(number).map(i32::from));
            } else {
                answer.extend(given.answers.iter().copied().map(i32::from));
            }
        }
        Prepared::Link(given, segments, ..) => answer.extend(table(given.len(), segments)),
        Prepared::Build(given, segments, room, _) => {
            answer.extend(table(given.len(), segments));
            match done {
                Some([count, ..]) => {
                    let count = count as usize;
                    answer.extend(records::words(count, &room[..count]));
                }
                None => answer.extend(old_words),
            }
        }
        Prepared::Path(_, kinds, places) => {
            let count = done.map_or(0, |[count, ..]| count);
            answer.push(count);
            for (kind, places) in kinds.iter().zip(places.chunks(4)).take(count as usize) {
                answer.push((*kind).into());
                answer.extend(places[..floats(*kind)].iter().map(|float| bits(*float)));
            }
        }
        Prepared::PathStep(_, cursor, step) => {
            let (kind, places) = parts(*step);
            answer.push(kind);
            answer.extend(places.map(bits));
            answer.push(done.map_or(*cursor as i32, |[next, ..]| next));
        }
        Prepared::Shown(..) => {
            let [black, euler, ..] = done.unwrap_or_default();
            answer.extend([black, euler]);
        }
        Prepared::EdgePoints(_, _, _, currents, touches)
        | Prepared::Strong(_, _, currents, touches) => {
            answer.push(currents.len() as i32);
            answer.extend(currents);
            answer.push(touches.len() as i32);
            answer.extend(touches.iter().copied().map(i32::from));
        }
        Prepared::Fit(fit) => {
            answer.extend(done.unwrap_or(one_call::REFUSED));
            answer.extend(fit.lists());
        }
        Prepared::Job(_, out) => answer.extend(out),
        Prepared::Edges(given, edges, call) => {
            answer.extend(beside(call, done));
            if !matches!(call, Call::Bounds(_) | Call::Gaps(..)) {
                let carried = if words[0] == LENT_M {
                    edges.len()
                } else {
                    EDGES
                };
                let carried = &edges[..edges.len().min(carried)];
                answer.extend(records::words(given.len(), carried));
            }
        }
    }
    answer
}

/// The floats of a step of a kind.
fn floats(kind: u8) -> usize {
    match kind {
        1 | 2 => 2,
        3 => 4,
        _ => 0,
    }
}

/// A float by its bits, as a word.
fn bits(float: f32) -> i32 {
    float.to_bits() as i32
}

/// The kind of a step and its places, 0 where it has none.
fn parts(step: Option<PathStep>) -> (i32, [f32; 4]) {
    match step {
        None => (0, [0.0; 4]),
        Some(PathStep::Move(to)) => (1, [to.x, to.y, 0.0, 0.0]),
        Some(PathStep::Line(to)) => (2, [to.x, to.y, 0.0, 0.0]),
        Some(PathStep::Curve(by, to)) => (3, [by.x, by.y, to.x, to.y]),
        Some(PathStep::Close) => (4, [0.0; 4]),
    }
}

/// The words of a table of segments.
fn table(count: usize, segments: &[khsaemudol::Segment]) -> Vec<i32> {
    records::words(count, &segments[..segments.len().min(SEGMENTS)])
}

/// What stands between the number and the lists: beside a refusal 0 or none.
fn beside(call: &Call, done: Option<Beside>) -> Vec<i32> {
    let none: &[i32] = match call {
        Call::Blues(..) | Call::Remaining(_) => &[-1],
        Call::CjkStem(..) => &[0],
        Call::Bounds(_) => &[-1, -1],
        Call::Stems(..) | Call::Joined(..) | Call::Apart(..) => &[0, -1],
        Call::Gaps(..) => &NO_PAIR[..7],
        Call::Linked(..) | Call::Serif(..) | Call::Adjust(..) | Call::M(_) => &[],
    };
    let words = done.as_ref().map_or(none, |words| &words[..none.len()]);
    words.to_vec()
}

/// The words of a building job's old table of edges.
fn old_table(job: &Job, words: &[i32]) -> Vec<i32> {
    let Job::Build(segments, old, _) = job else {
        return Vec::new();
    };
    let start = 2 + SEGMENT_WORDS * segments.items.len();
    words[start..=start + EDGE_WORDS * old.items.len()].to_vec()
}
