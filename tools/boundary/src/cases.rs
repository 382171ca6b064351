//! What functions over edges or segments are given: the oracle's jobs, damaged, and small cases one after the other.

use crate::{
    function::{
        takes_axis, Function, Given, Kind, Lent, Record, ALTERED, BLUE, BUILDING, EDGE, EMPTY_EDGE,
        GUARD, JOINED, LOWERCASE_M, MENDING, PACKING, SEGMENT, TURNING,
    },
    memory::SHUT_WORDS,
};
use oracle::{
    decode::decode,
    generate::{self, Profile, Random},
    text,
};

/// A made-up case: a job of the oracle, as it is or damaged up to three times.
pub fn random(function: &Function, random: &mut Random) -> Given {
    let mut given = of_job(function, random);
    for _ in 0..random.pick(&[0, 1, 1, 1, 2, 2, 3]) {
        damage(function, &mut given, random);
    }
    if given.shut.is_some() {
        given.lent.table.clear();
    }
    given
}

/// A job that is one, as C passes it.
fn of_job(function: &Function, random: &mut Random) -> Given {
    let profile = random.pick(&[Profile::Mixed, Profile::Small, Profile::Limits]);
    loop {
        let line = generate::line(function.call as usize, profile, random);
        let words = text::parse(&line).filter(|words| decode(words).is_some());
        if let Some(words) = words {
            return passed(function, &words, random);
        }
    }
}

/// A job's words as they are passed; of a list that is too long some records are made up.
fn passed(function: &Function, words: &[i32], random: &mut Random) -> Given {
    let record = function.record;
    let count = words[1] as usize;
    let carried = count.min(record.most) * record.words;
    let mut given = plain(function, 0, random);
    given.lent.table = words[2..2 + carried].to_vec();
    if count > record.most {
        lengthen(record, &mut given.lent.table, random);
    }
    let mut rest = &words[2 + carried..];
    if function.call == BUILDING {
        let old = (rest[0] as usize).min(EDGE.most);
        rest = &rest[1 + old * EDGE.words..];
    }
    if takes_axis(function.call) {
        given.lent.room = rest[1..].to_vec();
        if rest[0] as usize > EDGE.most {
            lengthen(&EDGE, &mut given.lent.room, random);
        }
    }
    for ix in 0..function.numbers.len() {
        given.numbers[ix] = rest[0];
        rest = &rest[1..];
        if function.rule == Some(ix) {
            let (standards, behind) = rest[1..].split_at(rest[0] as usize);
            given.lent.standards = standards.to_vec();
            rest = behind;
        }
    }
    given
}

/// Accepted numbers, so many plain records, and what is lent to be written full of words.
fn plain(function: &Function, count: usize, random: &mut Random) -> Given {
    let mut words = |count: usize| (0..count).map(|_| random.bits() as i32).collect();
    let room = match function.call {
        BUILDING => words(EDGE.most * EDGE.words),
        call if takes_axis(call) => plain_record(&EDGE).repeat(RINGS),
        _ => Vec::new(),
    };
    let altered = match function.call {
        MENDING => words(ALTERED),
        _ => Vec::new(),
    };
    let mut given = Given {
        lent: Lent {
            table: plain_record(function.record).repeat(count),
            room,
            altered,
            standards: Vec::new(),
            places: words(function.places),
        },
        shut: None,
        numbers: function.plain.to_vec(),
    };
    if [MENDING, PACKING].contains(&function.call) {
        close_rings(&mut given.lent);
    }
    given
}

/// How many edges the plain axes have.
const RINGS: usize = 2;

/// Where a segment has its edge and its next, and an edge its first and last segment.
const SEGMENT_EDGE: usize = 13;
const SEGMENT_NEXT: usize = 14;
const EDGE_FIRST: usize = 9;
const EDGE_LAST: usize = 10;

/// Gives each edge a segment of its own, which leads to itself.
fn close_rings(lent: &mut Lent) {
    for (ix, segment) in lent.table.chunks_mut(SEGMENT.words).take(RINGS).enumerate() {
        segment[SEGMENT_EDGE] = ix as i32;
        segment[SEGMENT_NEXT] = ix as i32;
    }
    for (ix, edge) in lent.room.chunks_mut(EDGE.words).enumerate() {
        edge[EDGE_FIRST] = ix as i32;
        edge[EDGE_LAST] = ix as i32;
    }
}

/// A record that every call accepts.
fn plain_record(record: &Record) -> &'static [i32] {
    if record.words == SEGMENT.words {
        &[0, 1, 0, 0, 0, 0, 0, 0, 0, -1, -1, 0, 0, -1, -1]
    } else {
        &EMPTY_EDGE
    }
}

/// Words at the ends of fields and of limits, and beside them.
pub const WORDS: [i32; 47] = [
    i32::MIN,
    -16_777_217,
    -16_777_216,
    -65_537,
    -65_536,
    -65_535,
    -32_769,
    -32_768,
    -16_384,
    -16_383,
    -2,
    -1,
    0,
    1,
    2,
    3,
    4,
    5,
    6,
    7,
    8,
    9,
    10,
    11,
    12,
    13,
    15,
    16,
    17,
    127,
    128,
    129,
    255,
    256,
    512,
    16_383,
    16_384,
    32_767,
    32_768,
    65_534,
    65_535,
    65_536,
    65_537,
    65_538,
    16_777_216,
    16_777_217,
    i32::MAX,
];

/// Damages what is given in one way.
fn damage(function: &Function, given: &mut Given, random: &mut Random) {
    let record = function.record;
    match random.below(12) {
        0..=3 => damage_word(&mut given.lent.table, random),
        4..=6 if takes_axis(function.call) => damage_word(&mut given.lent.room, random),
        4..=6 => damage_number(function, given, random),
        7 => {
            let words = random.below(record.words - 1) + 1;
            if random.coin() {
                given.lent.table.extend(vec![random.pick(&WORDS); words]);
            } else {
                let left = given.lent.table.len().saturating_sub(words);
                given.lent.table.truncate(left);
            }
        }
        8 if takes_axis(function.call) && random.coin() => {
            lengthen(&EDGE, &mut given.lent.room, random)
        }
        8 => lengthen(record, &mut given.lent.table, random),
        9 => {
            let least = (record.most + 1) * record.words;
            given.shut = Some(least + random.below(SHUT_WORDS - least));
            if random.coin() {
                given.shut = given.shut.map(|len| len / record.words * record.words);
            }
        }
        10 if function.call == BUILDING => {
            let full = EDGE.most * EDGE.words;
            let near = [full - EDGE.words, full - 1, full + 1, full + EDGE.words];
            let len = random.pick(&[&[0, 1, EDGE.words, 2 * full], &near[..]].concat());
            given.lent.room.resize(len, 7);
        }
        10 if function.call == MENDING && random.coin() => {
            let near = [ALTERED - 5, ALTERED - 1, ALTERED + 1, ALTERED + 5];
            let len = random.pick(&[&[0, 1, 2 * ALTERED], &near[..]].concat());
            given.lent.altered.resize(len, 7);
        }
        10 if takes_axis(function.call) => {
            let len = given.lent.room.len() + random.below(2 * EDGE.words);
            given.lent.room.resize(len.saturating_sub(EDGE.words), 0);
        }
        10 | 11 => damage_standards(&mut given.lent.standards, random),
        _ => unreachable!(),
    }
}

/// Changes one word of a list, or none of an empty one.
pub fn damage_word(words: &mut [i32], random: &mut Random) {
    if !words.is_empty() {
        let at = random.below(words.len());
        words[at] = word(words[at], random);
    }
}

/// A word in the place of another.
fn word(old: i32, random: &mut Random) -> i32 {
    match random.below(8) {
        0 => random.bits() as i32,
        1 => old.wrapping_add(random.pick(&[-1, 1])),
        2 => old ^ 1 << random.below(32),
        _ => random.pick(&WORDS),
    }
}

/// Changes one number; an edge is also named by a word that is another's in its low 16 bits, or about the list's length.
fn damage_number(function: &Function, given: &mut Given, random: &mut Random) {
    let count = (given.lent.table.len() / function.record.words) as i32;
    let ix = random.below(given.numbers.len());
    let old = given.numbers[ix];
    given.numbers[ix] = match function.numbers[ix] {
        Kind::Named | Kind::Anchor if random.coin() => random.pick(&[
            count - 1,
            count,
            count + 1,
            old.wrapping_add(1 << 16),
            old.wrapping_sub(1 << 16),
            -1,
            -2,
        ]),
        _ => word(old, random),
    };
}

/// Makes a list one to forty records longer than its limit.
pub fn lengthen(record: &Record, table: &mut Vec<i32>, random: &mut Random) {
    let count = record.most + 1 + random.below(40);
    while table.len() < count * record.words {
        table.push(random.pick(&WORDS));
    }
}

/// Changes the standards' count, order or values.
pub fn damage_standards(standards: &mut Vec<i32>, random: &mut Random) {
    match random.below(4) {
        0 => standards.resize(random.pick(&[0, 1, 15, 16, 17, 18, 9_000]), 40),
        1 => *standards = (1..=random.pick(&[15, 16, 17])).map(|s| 9 * s).collect(),
        2 => standards.reverse(),
        _ => damage_word(standards, random),
    }
}

/// Small cases: every length, every word at the ends of its field, and every set of faults.
pub fn small(function: &Function, random: &mut Random) -> Vec<Given> {
    let mut cases = lengths(function, random);
    cases.extend(words(function, random));
    cases.extend(numbers(function, random));
    cases.extend(faults(function, random));
    if function.call == BUILDING {
        cases.extend(crowded(function, random));
    }
    cases
}

/// How many records the small cases have.
fn few(function: &Function) -> usize {
    if function.call == LOWERCASE_M {
        6
    } else {
        3
    }
}

/// Every length, in words, to two records above the limit.
fn lengths(function: &Function, random: &mut Random) -> Vec<Given> {
    let record = function.record;
    let given = plain(function, record.most + 2, random);
    let lengths = 0..=given.lent.table.len();
    let cut = |len: usize| {
        let mut given = given.clone();
        given.lent.table.truncate(len);
        given
    };
    lengths.map(cut).collect()
}

/// Every word of a few records, and of the edges of an axis, each with every word at the ends of fields.
fn words(function: &Function, random: &mut Random) -> Vec<Given> {
    let given = plain(function, few(function), random);
    let table = given.lent.table.len();
    let edges = match function.call {
        call if takes_axis(call) => given.lent.room.len(),
        _ => 0,
    };
    let places = 0..table + edges;
    let with = |(at, word): (usize, i32)| {
        let mut given = given.clone();
        match at.checked_sub(table) {
            Some(at) => given.lent.room[at] = word,
            None => given.lent.table[at] = word,
        }
        given
    };
    places
        .flat_map(|at| WORDS.map(|word| (at, word)))
        .map(with)
        .collect()
}

/// Every number, the same way.
fn numbers(function: &Function, random: &mut Random) -> Vec<Given> {
    let given = plain(function, few(function), random);
    let places = 0..given.numbers.len();
    let with = |(at, word): (usize, i32)| {
        let mut given = given.clone();
        given.numbers[at] = word;
        given
    };
    places
        .flat_map(|at| WORDS.map(|word| (at, word)))
        .map(with)
        .collect()
}

/// A way to be refused.
type Fault = fn(&Function, &mut Given);

/// One fault for each answer and each cause of it, those last that change lengths.
const FAULTS: [Fault; 11] = [
    // building calls for a 129th edge, or the last edge of an axis has no segments
    |function, given| match function.call {
        BUILDING => given.lent.table = (0..129).flat_map(apart).collect(),
        MENDING | PACKING => given.lent.table[SEGMENT.words + SEGMENT_EDGE] = -1,
        _ => {}
    },
    // a position or a score is outside its limits
    |function, given| given.lent.table[function.record.measure] = -20_000,
    // a link is beyond the list
    |function, given| given.lent.table[function.record.link] = 60_000,
    // the scale is 0, the standards repeat, the least width is below 0, or the m has seven edges
    |function, given| {
        if let Some(scale) = function.scale {
            given.numbers[scale] = 0;
        }
        if let Some(rule) = function.rule {
            given.numbers[rule] = 1;
            given.lent.standards = vec![5, 5];
        }
        if function.call == GUARD {
            given.numbers[0] = -1;
        }
        if function.call == LOWERCASE_M {
            given.lent.table.extend(plain_record(function.record));
        }
    },
    // an edge has a zone where blues are skipped, or a segment an edge beyond the list
    |function, given| match function.call {
        JOINED => given.lent.table[BLUE] = 1,
        MENDING | PACKING => given.lent.table[2 * SEGMENT.words + SEGMENT_EDGE] = RINGS as i32,
        _ => {}
    },
    // an edge is named by a word that is no index
    |function, given| {
        let named = |kind: &Kind| matches!(kind, Kind::Named | Kind::Anchor);
        if let Some(ix) = function.numbers.iter().position(named) {
            given.numbers[ix] = -7;
        }
    },
    // a word of a record is none of its field's values
    |function, given| given.lent.table[function.record.flags] = 16,
    // a number is
    |function, given| {
        let chosen = |kind: &Kind| matches!(kind, Kind::Choice | Kind::Direction);
        if let Some(ix) = function.numbers.iter().position(chosen) {
            given.numbers[ix] = 9;
        }
    },
    // the list is too long
    |function, given| {
        let record = function.record;
        while given.lent.table.len() <= record.most * record.words {
            given.lent.table.extend(plain_record(record));
        }
    },
    // the room is too short, or the edges are not whole records
    |function, given| match function.call {
        MENDING => drop(given.lent.altered.pop()),
        PACKING | TURNING => given.lent.room.push(0),
        _ => given.lent.room.truncate(EDGE.most * EDGE.words - 1),
    },
    // the list is not of whole records
    |_, given| given.lent.table.push(0),
];

/// Building of about as many edges as there is room for, on both axes, for both groups and in both orders.
fn crowded(function: &Function, random: &mut Random) -> Vec<Given> {
    let given = plain(function, 0, random);
    let of = |(count, choices): (i32, i32)| {
        let mut given = given.clone();
        given.lent.table = (0..count).flat_map(apart).collect();
        given.numbers[0] = choices & 1;
        given.numbers[2] = choices >> 1 & 1;
        given.numbers[3] = choices >> 2 & 1;
        given
    };
    let counts = 120..=140;
    counts
        .flat_map(|count| (0..8).map(move |choices| (count, choices)))
        .map(of)
        .collect()
}

/// A segment that makes an edge of its own.
fn apart(ix: i32) -> [i32; 15] {
    [
        0,
        1,
        9 * ix,
        0,
        0,
        32_767,
        32_767,
        0,
        0,
        -1,
        -1,
        0,
        0,
        -1,
        -1,
    ]
}

/// Every set of faults, the empty one too.
fn faults(function: &Function, random: &mut Random) -> Vec<Given> {
    let plain = plain(function, few(function), random);
    let of_set = |set: usize| {
        let mut given = plain.clone();
        for (ix, fault) in FAULTS.iter().enumerate() {
            if set >> ix & 1 == 1 {
                fault(function, &mut given);
            }
        }
        given
    };
    (0..1 << FAULTS.len()).map(of_set).collect()
}
