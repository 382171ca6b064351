//! Mending an axis and making it smaller, timed beside plain loops over the same records.

use crate::time::{self, Side};
use khsaemudol::{EDGE_WORDS, SEGMENT_WORDS};
use oracle::{
    answer, decode,
    generate::Random,
    limits::{EDGES, SEGMENTS},
};
use std::hint::black_box;

extern "C" {
    fn khs_mend(
        segments: *mut i32,
        segments_len: usize,
        edges: *mut i32,
        edges_len: usize,
        altered: *mut i32,
        altered_len: usize,
        count: *mut i32,
    ) -> u8;
    fn khs_pack_axis(
        segments: *mut i32,
        segments_len: usize,
        edges: *mut i32,
        edges_len: usize,
        count: *mut i32,
    ) -> u8;
}

/// How many segments the axes have.
const SIZES: [usize; 4] = [10, 50, 150, 512];
/// Axes in a round.
const ROUND: usize = 16;
/// The segments of an edge, where all have one.
const RING: usize = 4;

/// The words of a segment that name others: its link, its serif, its edge and its next.
const LINK: usize = 9;
const SERIF: usize = 10;
const EDGE: usize = 13;
const NEXT: usize = 14;
/// Those of an edge: its link, its serif, its first and its last segment.
const EDGE_LINK: usize = 7;
const EDGE_SERIF: usize = 8;
const FIRST: usize = 9;
const LAST: usize = 10;
/// No index.
const NONE: i32 = -1;
/// An index that is beyond every list.
const GONE: i32 = 60_000;

/// Table, index, field, old and new value.
type Alteration = [i32; 5];
/// The most of them.
const ALTERATIONS: usize = 3 * SEGMENTS + 4 * EDGES;

/// An axis, its records as words.
#[derive(Clone, PartialEq, Debug)]
struct Axis {
    segments: Vec<[i32; SEGMENT_WORDS]>,
    edges: Vec<[i32; EDGE_WORDS]>,
}

/// Axes of a kind: its name, and how they are made of one with sound rings.
type Kind = (&'static str, fn(&mut Axis));

/// What is done to an axis.
#[derive(Copy, Clone, PartialEq)]
pub enum Work {
    Mend,
    Pack,
}

impl Work {
    /// The call's word in a job, and the name of its table.
    fn call(self) -> (i32, &'static str) {
        match self {
            Self::Mend => (121, "mend"),
            Self::Pack => (123, "pack"),
        }
    }

    /// The kinds of axes that are timed.
    fn kinds(self) -> [Kind; 3] {
        match self {
            Self::Mend => [
                ("sound rings", |_| {}),
                ("every ring broken", break_rings),
                ("every field beyond its list", lose_everything),
            ],
            Self::Pack => [
                ("all segments kept", |_| {}),
                ("every second one serves no edge", loosen),
                ("a chain to lower indices", chain),
            ],
        }
    }
}

/// Leads every segment to itself; a ring of one is left out of its edge's ends.
fn break_rings(axis: &mut Axis) {
    for (ix, segment) in axis.segments.iter_mut().enumerate() {
        segment[NEXT] = ix as i32;
    }
    for edge in &mut axis.edges {
        (edge[FIRST], edge[LAST]) = (edge[LAST], GONE);
    }
}

/// Sets every index but a segment's edge beyond its list.
fn lose_everything(axis: &mut Axis) {
    for segment in &mut axis.segments {
        (segment[LINK], segment[SERIF], segment[NEXT]) = (GONE, GONE, GONE);
    }
    for edge in &mut axis.edges {
        (edge[EDGE_LINK], edge[EDGE_SERIF]) = (GONE, GONE);
        (edge[FIRST], edge[LAST]) = (GONE, GONE);
    }
}

/// Takes every second segment out of its ring; the others link to each other alone.
fn loosen(axis: &mut Axis) {
    let count = axis.segments.len();
    for (ix, segment) in axis.segments.iter_mut().enumerate() {
        let link = Some(ix + 2).filter(|link| *link < count);
        (segment[LINK], segment[SERIF]) = (link.map_or(NONE, |link| link as i32), NONE);
        segment[NEXT] = NONE;
        segment[EDGE] = if ix % 2 == 0 {
            (ix / 2 / RING) as i32
        } else {
            NONE
        };
    }
    leave(axis, count.div_ceil(2).div_ceil(RING));
}

/// Leaves the last segment its edge alone; each is linked to the one before.
fn chain(axis: &mut Axis) {
    for (ix, segment) in axis.segments.iter_mut().enumerate() {
        (segment[LINK], segment[SERIF]) = (ix as i32 - 1, NONE);
        (segment[EDGE], segment[NEXT]) = (NONE, NONE);
    }
    let last = axis.segments.len() - 1;
    axis.segments[last][EDGE] = 0;
    leave(axis, 1);
}

/// Leaves so many edges, without links, and closes their rings.
fn leave(axis: &mut Axis, count: usize) {
    axis.edges.truncate(count);
    for edge in &mut axis.edges {
        edge[EDGE_LINK] = NONE;
    }
    close(axis);
}

/// Closes the ring of every edge over its segments, in rising order.
fn close(axis: &mut Axis) {
    for (ix, edge) in axis.edges.iter_mut().enumerate() {
        let of_edge = |at: &usize| axis.segments[*at][EDGE] == ix as i32;
        let ring: Vec<usize> = (0..axis.segments.len()).filter(of_edge).collect();
        for (place, at) in ring.iter().enumerate() {
            axis.segments[*at][NEXT] = ring[(place + 1) % ring.len()] as i32;
        }
        edge[FIRST] = ring[0] as i32;
        edge[LAST] = ring[ring.len() - 1] as i32;
    }
}

/// An axis of so many segments with sound rings, four a ring, linked in pairs.
fn axis(count: usize, random: &mut Random) -> Axis {
    let edge_count = count.div_ceil(RING);
    let segment = |ix: usize| {
        let mut words = [0; SEGMENT_WORDS];
        words[2] = random.between(-1_000, 1_000);
        words[LINK] = (ix ^ 1).min(count - 1) as i32;
        words[SERIF] = if random.once_in(4) {
            random.below(count) as i32
        } else {
            NONE
        };
        words[EDGE] = (ix % edge_count) as i32;
        words
    };
    let segments = (0..count).map(segment).collect();
    let edge = |ix: usize| {
        let mut words = [0; EDGE_WORDS];
        words[1] = 64 * ix as i32;
        (words[EDGE_LINK], words[EDGE_SERIF]) = ((ix ^ 1).min(edge_count - 1) as i32, NONE);
        words
    };
    let edges = (0..edge_count).map(edge).collect();
    let mut axis = Axis { segments, edges };
    close(&mut axis);
    axis
}

/// The same axis, refused by its last test: the last edge has no segments, or its ring does not close.
fn refused(work: Work, given: &Axis) -> Axis {
    let mut axis = given.clone();
    let last = axis.edges.len() as i32 - 1;
    let of_last = axis
        .segments
        .iter_mut()
        .filter(|segment| segment[EDGE] == last);
    for segment in of_last {
        match work {
            Work::Mend => segment[EDGE] = NONE,
            Work::Pack => segment[NEXT] = NONE,
        }
    }
    axis
}

/// The library's side: an axis, what it is lent, and the room for what is altered.
struct Port {
    work: Work,
    given: Axis,
    lent: Axis,
    altered: Vec<Alteration>,
    count: i32,
}

impl Port {
    /// An axis that is not lent yet.
    fn new(work: Work, given: Axis) -> Self {
        Self {
            work,
            lent: given.clone(),
            given,
            altered: vec![[0; 5]; ALTERATIONS],
            count: 0,
        }
    }

    /// Calls the library.
    fn call(&mut self) -> u8 {
        let segments = self.lent.segments.as_flattened_mut();
        let edges = self.lent.edges.as_flattened_mut();
        let altered = self.altered.as_flattened_mut();
        let (table, len) = (segments.as_mut_ptr(), segments.len());
        let (edges, edges_len) = (edges.as_mut_ptr(), edges.len());
        // SAFETY: each pointer and length is of one live slice that is lent to this call alone.
        unsafe {
            match self.work {
                Work::Mend => khs_mend(
                    table,
                    len,
                    edges,
                    edges_len,
                    altered.as_mut_ptr(),
                    altered.len(),
                    &mut self.count,
                ),
                Work::Pack => khs_pack_axis(table, len, edges, edges_len, &mut self.count),
            }
        }
    }
}

impl Side for Port {
    fn restore(&mut self) {
        self.lent.clone_from(&self.given);
    }

    fn work(&mut self) {
        black_box(black_box(self).call());
    }
}

/// The plain side: the same, without tests.
struct Plain {
    work: Work,
    given: Axis,
    lent: Axis,
    altered: Vec<Alteration>,
    count: usize,
}

impl Plain {
    /// An axis that is not lent yet.
    fn new(work: Work, given: Axis) -> Self {
        Self {
            work,
            lent: given.clone(),
            given,
            altered: Vec::with_capacity(ALTERATIONS),
            count: 0,
        }
    }
}

impl Side for Plain {
    fn restore(&mut self) {
        self.lent.clone_from(&self.given);
        self.altered.clear();
    }

    fn work(&mut self) {
        let side = black_box(self);
        match side.work {
            Work::Mend => mend(&mut side.lent, &mut side.altered),
            Work::Pack => side.count = pack(&mut side.lent),
        }
    }
}

/// Mends an axis.
fn mend(axis: &mut Axis, altered: &mut Vec<Alteration>) {
    let Axis { segments, edges } = axis;
    let (count, edge_count) = (segments.len() as i32, edges.len() as i32);
    let (mut counts, mut lowest, mut highest) = ([0; EDGES], [0; EDGES], [0; EDGES]);
    for (ix, segment) in segments.iter().enumerate().rev() {
        if let Some(edge) = index(segment[EDGE]) {
            if counts[edge] == 0 {
                highest[edge] = ix as i32;
            }
            counts[edge] += 1;
            lowest[edge] = ix as i32;
        }
    }
    let mut broken = [false; EDGES];
    for (ix, edge) in edges.iter().enumerate() {
        broken[ix] = !closes(segments, edge, ix, counts[ix]);
    }
    let mut next = [NONE; SEGMENTS];
    let mut behind = lowest;
    for (ix, segment) in segments.iter().enumerate().rev() {
        next[ix] = match index(segment[EDGE]) {
            Some(edge) if broken[edge] => std::mem::replace(&mut behind[edge], ix as i32),
            Some(_) => segment[NEXT],
            None => within(segment[NEXT], count),
        };
    }
    let mut amend = |table: i32, ix: usize, field: i32, word: &mut i32, new: i32| {
        if *word != new {
            altered.push([table, ix as i32, field, *word, new]);
            *word = new;
        }
    };
    for (ix, segment) in segments.iter_mut().enumerate() {
        let [link, serif] = [segment[LINK], segment[SERIF]];
        amend(0, ix, 0, &mut segment[LINK], within(link, count));
        amend(0, ix, 1, &mut segment[SERIF], within(serif, count));
        amend(0, ix, 2, &mut segment[NEXT], next[ix]);
    }
    for (ix, edge) in edges.iter_mut().enumerate() {
        let [link, serif] = [edge[EDGE_LINK], edge[EDGE_SERIF]];
        amend(1, ix, 0, &mut edge[EDGE_LINK], within(link, edge_count));
        amend(1, ix, 1, &mut edge[EDGE_SERIF], within(serif, edge_count));
        if broken[ix] {
            amend(1, ix, 3, &mut edge[FIRST], lowest[ix]);
            amend(1, ix, 4, &mut edge[LAST], highest[ix]);
        }
    }
}

/// An index as one, where it is there.
fn index(word: i32) -> Option<usize> {
    usize::try_from(word).ok()
}

/// An index below a count, or none.
fn within(word: i32, count: i32) -> i32 {
    if word < count {
        word
    } else {
        NONE
    }
}

/// Whether so many segments of an edge follow each other from its first to its last, which leads back.
fn closes(
    segments: &[[i32; SEGMENT_WORDS]],
    edge: &[i32; EDGE_WORDS],
    ix: usize,
    count: usize,
) -> bool {
    let mut at = edge[FIRST];
    for step in 1..=count {
        let segment = match index(at).and_then(|at| segments.get(at)) {
            Some(segment) if segment[EDGE] == ix as i32 => segment,
            _ => return false,
        };
        if at == edge[LAST] {
            return step == count && segment[NEXT] == edge[FIRST];
        }
        at = segment[NEXT];
    }
    false
}

/// Makes an axis smaller, and tells how many segments are kept.
fn pack(axis: &mut Axis) -> usize {
    let Axis { segments, edges } = axis;
    let count = segments.len();
    let (mut kept, mut order) = ([false; SEGMENTS], Vec::with_capacity(SEGMENTS));
    for (ix, segment) in segments.iter().enumerate() {
        if segment[EDGE] != NONE {
            kept[ix] = true;
            order.push(ix);
        }
    }
    let mut followed = 0;
    while followed < order.len() {
        let segment = &segments[order[followed]];
        for to in [segment[LINK], segment[SERIF]]
            .into_iter()
            .filter_map(index)
        {
            if !kept[to] {
                kept[to] = true;
                order.push(to);
            }
        }
        followed += 1;
    }
    let mut new = [0; SEGMENTS];
    let mut next = 0;
    for ix in 0..count {
        new[ix] = next;
        next += i32::from(kept[ix]);
    }
    let moved = |word: i32| index(word).map_or(NONE, |ix| new[ix]);
    for ix in (0..count).filter(|ix| kept[*ix]) {
        let mut segment = segments[ix];
        segment[LINK] = moved(segment[LINK]);
        segment[SERIF] = moved(segment[SERIF]);
        segment[NEXT] = if segment[EDGE] == NONE {
            NONE
        } else {
            moved(segment[NEXT])
        };
        segments[new[ix] as usize] = segment;
    }
    let mut empty = [0; SEGMENT_WORDS];
    for field in [LINK, SERIF, EDGE, NEXT] {
        empty[field] = NONE;
    }
    segments[next as usize..].fill(empty);
    for edge in edges {
        (edge[FIRST], edge[LAST]) = (moved(edge[FIRST]), moved(edge[LAST]));
    }
    next as usize
}

/// Prints a line for each kind of axes and each size.
pub fn run(work: Work) {
    let (_, name) = work.call();
    println!("{name}: median times of a call in nanoseconds, in place over the words of an axis of four segments an edge, or fewer; the Rust does the same steps over the same records, without");
    println!("tests. `reading` is the port's time where its last test refuses the axis.");
    println!(
        "{:40} {:>5} {:>10} {:>10} {:>10} {:>9}",
        "inputs", "size", "port ns", "reading", "Rust ns", "port/Rust"
    );
    for (kind, change) in work.kinds() {
        for size in SIZES {
            let mut random = Random::new(size as u64);
            let made = |_| {
                let mut axis = axis(size, &mut random);
                change(&mut axis);
                axis
            };
            let axes: Vec<Axis> = (0..ROUND).map(made).collect();
            axes.iter().for_each(|axis| compare(work, axis));
            let ports = |axes: Vec<Axis>| -> Vec<Port> {
                axes.into_iter().map(|axis| Port::new(work, axis)).collect()
            };
            let mut reading = ports(axes.iter().map(|axis| refused(work, axis)).collect());
            let mut plain: Vec<Plain> = axes
                .iter()
                .map(|axis| Plain::new(work, axis.clone()))
                .collect();
            let mut port = ports(axes);
            let times = time::medians([&mut port, &mut reading, &mut plain]);
            let [port, reading, rust] = times.map(|time| time / ROUND as f64);
            let ratio = port / rust;
            println!("{kind:40} {size:5} {port:10.1} {reading:10.1} {rust:10.1} {ratio:9.2}");
        }
    }
}

/// Sees that the library, the plain loops and the oracle come to the same, and that the axis is done, and refused where it should be.
fn compare(work: Work, axis: &Axis) {
    let mut port = Port::new(work, axis.clone());
    assert_eq!(port.call(), 0, "the port refused");
    let mut plain = Plain::new(work, axis.clone());
    plain.work();
    assert_eq!(port.lent, plain.lent, "the results differ");
    let count = port.count as usize;
    match work {
        Work::Mend => assert_eq!(port.altered[..count], plain.altered, "the lists differ"),
        Work::Pack => assert_eq!(count, plain.count, "the counts differ"),
    }
    let (call, _) = work.call();
    let mut words = vec![call];
    words.extend(listed(axis.segments.as_flattened(), SEGMENT_WORDS));
    words.extend(listed(axis.edges.as_flattened(), EDGE_WORDS));
    let job = decode::decode(&words).expect("the words are a job");
    let kept = if work == Work::Pack {
        count
    } else {
        axis.segments.len()
    };
    let (front, freed) = port.lent.segments.split_at(kept);
    let mut answered = vec![0];
    answered.extend(listed(front.as_flattened(), SEGMENT_WORDS));
    answered.extend(listed(port.lent.edges.as_flattened(), EDGE_WORDS));
    answered.extend(match work {
        Work::Mend => listed(port.altered[..count].as_flattened(), 5),
        Work::Pack => listed(freed.as_flattened(), SEGMENT_WORDS),
    });
    assert_eq!(answered, answer::answer(job).values, "the oracle differs");
    let mut refused = Port::new(work, refused(work, axis));
    assert_eq!(refused.call(), 7, "the last test is that of rings");
}

/// Words of records behind their count.
fn listed(words: &[i32], record: usize) -> Vec<i32> {
    [&[(words.len() / record) as i32], words].concat()
}
