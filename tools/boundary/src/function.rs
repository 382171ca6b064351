//! The functions over edges or segments, and what C passes to them.

use crate::{
    ffi,
    memory::{Memory, Side},
};
use std::ptr;

/// Edges or segments as words.
pub struct Record {
    pub name: &'static str,
    /// The words of one.
    pub words: usize,
    /// The most of them in a list.
    pub most: usize,
    /// The least and the largest value of each word.
    pub fields: &'static [(i32, i32)],
    /// Where the words are that the made-up faults change.
    pub flags: usize,
    pub measure: usize,
    pub link: usize,
}

const ANY: (i32, i32) = (i32::MIN, i32::MAX);
const SHORT: (i32, i32) = (-32_768, 32_767);
const FLAGS: (i32, i32) = (0, 15);
const DIRECTION: (i32, i32) = (0, 4);
const CHOICE: (i32, i32) = (0, 1);
const INDEX: (i32, i32) = (0, 65_535);
const LINK: (i32, i32) = (-1, 65_535);
const MARK: (i32, i32) = (0, 12);

/// An edge: fpos, opos, pos, flags, dir, blue, blue_fitted, link, serif, first, last, mark.
pub static EDGE: Record = Record {
    name: "edges",
    words: EMPTY_EDGE.len(),
    most: 128,
    fields: &[
        SHORT, ANY, ANY, FLAGS, DIRECTION, CHOICE, ANY, LINK, LINK, INDEX, INDEX, MARK,
    ],
    flags: 3,
    measure: 1,
    link: 7,
};

/// A segment: flags, dir, pos, delta, min_coord, max_coord, height, score, len, link, serif, first, last, edge, next.
pub static SEGMENT: Record = Record {
    name: "segments",
    words: 15,
    most: 512,
    fields: &[
        FLAGS, DIRECTION, SHORT, SHORT, SHORT, SHORT, SHORT, ANY, ANY, LINK, LINK, INDEX, INDEX,
        LINK, LINK,
    ],
    flags: 0,
    measure: 7,
    link: 9,
};

/// Where an edge says whether it has a zone, and where that comes to, which is 0 without one.
pub const BLUE: usize = 5;
pub const FITTED: usize = 6;

/// The words of an edge of which every number is 0 and every link none.
pub const EMPTY_EDGE: [i32; 12] = [0, 0, 0, 0, 0, 0, 0, -1, -1, 0, 0, 0];

/// What a number of a call is.
#[derive(Copy, Clone, PartialEq, Debug)]
pub enum Kind {
    /// 0 or 1.
    Choice,
    /// 0 to 4.
    Direction,
    /// 0 to 65,535.
    Count,
    /// An edge named in the call.
    Named,
    /// An edge or none.
    Anchor,
    /// Any word, held to document 01's limits.
    Free,
}

use Kind::{Anchor, Choice, Count, Direction, Free, Named};

/// A function over edges or segments.
pub struct Function {
    pub name: &'static str,
    /// The call's word in a job.
    pub call: i32,
    pub record: &'static Record,
    /// Its numbers, in their order.
    pub numbers: &'static [Kind],
    /// Which of them is the width rule, whose standards stand behind it.
    pub rule: Option<usize>,
    /// Numbers that are accepted.
    pub plain: &'static [i32],
    /// Which of them is the scale, at least 1.
    pub scale: Option<usize>,
    /// How many places it is lent for results.
    pub places: usize,
}

/// All of them.
pub static FUNCTIONS: [Function; 16] = [
    Function {
        name: "khs_link_segments_cjk",
        call: 4,
        record: &SEGMENT,
        numbers: &[Direction, Free, Free],
        rule: None,
        plain: &[1, 1_000, 65_536],
        scale: Some(2),
        places: 0,
    },
    Function {
        name: "khs_compute_edges",
        call: 105,
        record: &SEGMENT,
        numbers: &[Choice, Direction, Choice, Choice, Free, Free, Free, Free],
        rule: None,
        plain: &[1, 1, 0, 0, 65_536, 3, 0, 65_535],
        scale: Some(4),
        places: 1,
    },
    Function {
        name: "khs_align_edges_to_blues",
        call: 106,
        record: &EDGE,
        numbers: &[Choice, Choice, Choice],
        rule: Some(2),
        plain: &[1, 0, 0],
        scale: None,
        places: 1,
    },
    Function {
        name: "khs_align_linked_edge",
        call: 107,
        record: &EDGE,
        numbers: &[Choice, Named, Named],
        rule: Some(0),
        plain: &[0, 0, 1],
        scale: None,
        places: 0,
    },
    Function {
        name: "khs_align_serif_edge",
        call: 108,
        record: &EDGE,
        numbers: &[Named, Named],
        rule: None,
        plain: &[0, 1],
        scale: None,
        places: 0,
    },
    Function {
        name: "khs_adjust_link",
        call: 109,
        record: &EDGE,
        numbers: &[Named, Choice, Choice],
        rule: None,
        plain: &[1, 0, 0],
        scale: None,
        places: 0,
    },
    Function {
        name: "khs_latin_remaining_bounds",
        call: 110,
        record: &EDGE,
        numbers: &[Named],
        rule: None,
        plain: &[1],
        scale: None,
        places: 2,
    },
    Function {
        name: "khs_hint_normal_stem_cjk",
        call: 111,
        record: &EDGE,
        numbers: &[Choice, Choice, Choice, Named, Named, Free],
        rule: Some(2),
        plain: &[0, 0, 0, 0, 1, 0],
        scale: None,
        places: 1,
    },
    Function {
        name: "khs_align_stem_edges",
        call: 112,
        record: &EDGE,
        numbers: &[Choice, Choice, Choice, Choice, Anchor, Choice],
        rule: Some(5),
        plain: &[0, 0, 0, 0, -1, 0],
        scale: None,
        places: 2,
    },
    Function {
        name: "khs_align_blues_and_stems",
        call: 122,
        record: &EDGE,
        numbers: &[Choice, Choice, Choice, Choice, Choice],
        rule: Some(4),
        plain: &[0, 0, 0, 0, 0],
        scale: None,
        places: 2,
    },
    Function {
        name: "khs_align_remaining_edges",
        call: 130,
        record: &EDGE,
        numbers: &[Choice, Choice, Count, Anchor],
        rule: None,
        plain: &[0, 0, 1, -1],
        scale: None,
        places: 1,
    },
    Function {
        name: "khs_hint_lowercase_m",
        call: 113,
        record: &EDGE,
        numbers: &[Choice],
        rule: None,
        plain: &[0],
        scale: None,
        places: 0,
    },
    Function {
        name: "khs_lost_gaps",
        call: 127,
        record: &EDGE,
        numbers: &[Free, Choice],
        rule: None,
        plain: &[0, 0],
        scale: None,
        places: 7,
    },
    Function {
        name: "khs_mend",
        call: 121,
        record: &SEGMENT,
        numbers: &[],
        rule: None,
        plain: &[],
        scale: None,
        places: 1,
    },
    Function {
        name: "khs_pack_axis",
        call: 123,
        record: &SEGMENT,
        numbers: &[],
        rule: None,
        plain: &[],
        scale: None,
        places: 1,
    },
    Function {
        name: "khs_turn_over",
        call: 124,
        record: &SEGMENT,
        numbers: &[],
        rule: None,
        plain: &[],
        scale: None,
        places: 0,
    },
];

/// The call that builds edges, the call that finds bounds, the m rule, the call that mends an axis, blues and stems in one, the calls that make an axis smaller and turn its edges
/// over, and the guard; that and the bounds do not write their edges.
pub const BUILDING: i32 = 105;
pub const BOUNDS: i32 = 110;
pub const LOWERCASE_M: i32 = 113;
pub const MENDING: i32 = 121;
pub const JOINED: i32 = 122;
pub const PACKING: i32 = 123;
pub const TURNING: i32 = 124;
pub const GUARD: i32 = 127;

/// The words of the room for what mending alters.
pub const ALTERED: usize = 2_048 * 5;

/// Whether a call is given both lists of an axis: its edges stand where building has its room.
pub fn takes_axis(call: i32) -> bool {
    [MENDING, PACKING, TURNING].contains(&call)
}

/// The most places that a function is lent.
const PLACES: usize = 7;

/// What everything lent holds, before a call or after it.
#[derive(Clone, PartialEq, Debug)]
pub struct Lent {
    /// The words of the edges or segments.
    pub table: Vec<i32>,
    /// Building's room for edges, and the edges of an axis.
    pub room: Vec<i32>,
    /// Mending's room for what it alters.
    pub altered: Vec<i32>,
    pub standards: Vec<i32>,
    /// The places for results.
    pub places: Vec<i32>,
}

/// What a function is given.
#[derive(Clone, Debug)]
pub struct Given {
    pub lent: Lent,
    /// A list of so many words that cannot be read, more than the limit, stands in the table's place, which is empty.
    pub shut: Option<usize>,
    pub numbers: Vec<i32>,
}

impl Given {
    /// The length of the table, in words.
    pub fn table_len(&self) -> usize {
        self.shut.unwrap_or(self.lent.table.len())
    }
}

/// What a function did.
#[derive(Clone, PartialEq, Debug)]
pub struct Outcome {
    pub answer: u8,
    pub lent: Lent,
}

/// The memory that everything is lent in.
pub struct Memories {
    table: Memory,
    room: Memory,
    altered: Memory,
    standards: Memory,
    places: [Memory; PLACES],
}

impl Memories {
    /// Memory of its own for each list and each place.
    pub fn new() -> Self {
        Self {
            table: Memory::new(),
            room: Memory::new(),
            altered: Memory::new(),
            standards: Memory::new(),
            places: [(); PLACES].map(|()| Memory::new()),
        }
    }

    /// Whether nothing beside a list was written.
    fn are_guarded(&self, places: usize) -> bool {
        let lists = [&self.table, &self.room, &self.altered, &self.standards];
        lists
            .into_iter()
            .chain(&self.places[..places])
            .all(Memory::is_guarded)
    }

    /// What everything lent holds now.
    fn held(&self, places: usize) -> Lent {
        Lent {
            table: self.table.held().to_vec(),
            room: self.room.held().to_vec(),
            altered: self.altered.held().to_vec(),
            standards: self.standards.held().to_vec(),
            places: self.places[..places]
                .iter()
                .map(|place| place.held()[0])
                .collect(),
        }
    }
}

/// Calls a function, each list at one side of its memory; none where something beside a list was written.
pub fn run(
    function: &Function,
    given: &Given,
    memories: &mut Memories,
    side: Side,
) -> Option<Outcome> {
    let table = match given.shut {
        Some(_) => memories.table.shut(),
        None => memories.table.lend(&given.lent.table, side),
    };
    // a list that the function does not take is not lent as NULL, so that only those are counted which are passed
    let taken = |takes: bool| if takes { side } else { Side::Placed };
    let takes_room = function.call == BUILDING || takes_axis(function.call);
    let room = memories.room.lend(&given.lent.room, taken(takes_room));
    let altered = (memories.altered).lend(&given.lent.altered, taken(function.call == MENDING));
    let standards =
        (memories.standards).lend(&given.lent.standards, taken(function.rule.is_some()));
    let mut places = [ptr::null_mut(); PLACES];
    for (ix, place) in given.lent.places.iter().enumerate() {
        places[ix] = memories.places[ix].lend(&[*place], side);
    }
    let lists = Pointers {
        table,
        table_len: given.table_len(),
        room,
        room_len: given.lent.room.len(),
        altered,
        altered_len: given.lent.altered.len(),
        standards,
        standards_len: given.lent.standards.len(),
        places,
    };
    let answer = call(function.call, &lists, &given.numbers);
    memories.are_guarded(function.places).then(|| Outcome {
        answer,
        lent: memories.held(function.places),
    })
}

/// The lists of a call, as they are passed.
struct Pointers {
    table: *mut i32,
    table_len: usize,
    room: *mut i32,
    room_len: usize,
    altered: *mut i32,
    altered_len: usize,
    standards: *const i32,
    standards_len: usize,
    places: [*mut i32; PLACES],
}

/// Passes lists and numbers to a function.
fn call(call: i32, lists: &Pointers, n: &[i32]) -> u8 {
    let Pointers {
        table,
        table_len: len,
        room,
        room_len,
        altered,
        altered_len,
        standards,
        standards_len,
        places: [first, second, third, fourth, fifth, sixth, seventh],
    } = *lists;
    // SAFETY: each pointer and length is of one list in memory of its own, but for a list that cannot be read: that one is too long, or not of whole records, and a
    // function that looked into it would be stopped.
    unsafe {
        match call {
            4 => ffi::khs_link_segments_cjk(table, len, n[0], n[1], n[2]),
            105 => ffi::khs_compute_edges(
                table, len, room, room_len, n[0], n[1], n[2], n[3], n[4], n[5], n[6], n[7], first,
            ),
            106 => ffi::khs_align_edges_to_blues(
                table,
                len,
                n[0],
                n[1],
                n[2],
                standards,
                standards_len,
                first,
            ),
            107 => {
                ffi::khs_align_linked_edge(table, len, n[0], standards, standards_len, n[1], n[2])
            }
            108 => ffi::khs_align_serif_edge(table, len, n[0], n[1]),
            109 => ffi::khs_adjust_link(table, len, n[0], n[1], n[2]),
            110 => ffi::khs_latin_remaining_bounds(table, len, n[0], first, second),
            111 => ffi::khs_hint_normal_stem_cjk(
                table,
                len,
                n[0],
                n[1],
                n[2],
                standards,
                standards_len,
                n[3],
                n[4],
                n[5],
                first,
            ),
            112 => ffi::khs_align_stem_edges(
                table,
                len,
                n[0],
                n[1],
                n[2],
                n[3],
                n[4],
                n[5],
                standards,
                standards_len,
                first,
                second,
            ),
            113 => ffi::khs_hint_lowercase_m(table, len, n[0]),
            130 => ffi::khs_align_remaining_edges(table, len, n[0], n[1], n[2], n[3], first),
            122 => ffi::khs_align_blues_and_stems(
                table,
                len,
                n[0],
                n[1],
                n[2],
                n[3],
                n[4],
                standards,
                standards_len,
                first,
                second,
            ),
            121 => ffi::khs_mend(table, len, room, room_len, altered, altered_len, first),
            123 => ffi::khs_pack_axis(table, len, room, room_len, first),
            124 => ffi::khs_turn_over(table, len, room, room_len),
            127 => ffi::khs_lost_gaps(
                table, len, n[0], n[1], first, second, third, fourth, fifth, sixth, seventh,
            ),
            _ => unreachable!("no function has this call"),
        }
    }
}
