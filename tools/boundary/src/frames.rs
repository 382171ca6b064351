//! The two functions of frames. A room for a read frame that has not 255 places is refused by 255, in front of 6.

use crate::{
    ffi,
    memory::{with_and_without, Memory, Side},
    model::NOT_WORDS,
    tally::Tally,
};
use oracle::{
    decode::decode,
    frames,
    generate::{self, Profile, Random},
    job::{Job, Points},
    limits::FRAME_BYTE,
    refusals::{frame_digits, Answer},
    text,
};

/// Which of the two functions.
#[derive(Copy, Clone, PartialEq, Debug)]
enum Call {
    Write,
    Read,
}

/// What a function is lent and leaves: an outline, or the rooms for one; a line; and places for counts, of which writing has the first.
#[derive(Clone, PartialEq, Debug)]
struct Lent {
    points: Points,
    line: Vec<u8>,
    counts: [u32; 2],
}

impl Lent {
    /// An outline and a line, and what stands in the places before a call.
    fn new(points: Points, line: Vec<u8>) -> Self {
        let counts = [98, 99];
        Self {
            points,
            line,
            counts,
        }
    }
}

/// The memory of what is lent.
struct Memories {
    originals: Memory,
    currents: Memory,
    touches: Memory,
    ends: Memory,
    line: Memory,
    counts: [Memory; 2],
}

impl Memories {
    /// Memory of its own for each list and each place.
    fn new() -> Self {
        Self {
            originals: Memory::new(),
            currents: Memory::new(),
            touches: Memory::new(),
            ends: Memory::new(),
            line: Memory::new(),
            counts: [Memory::new(), Memory::new()],
        }
    }

    /// The answer of a function and what it leaves; none where something else was written.
    fn run(&mut self, call: Call, lent: &Lent, side: Side) -> Option<(u8, Lent)> {
        let points = &lent.points;
        let originals = self.originals.lend(&points.originals, side);
        let currents = self.currents.lend(&points.currents, side);
        let touches = self.touches.lend(&points.touches, side);
        let ends = self.ends.lend(&points.ends, side);
        let line = self.line.lend(&lent.line, side);
        let first = self.counts[0].lend(&lent.counts[..1], side);
        let second = self.counts[1].lend(&lent.counts[1..], side);
        let [a, b, c, d] = lengths(points);
        let len = lent.line.len();
        // SAFETY: each pointer and length is of one list in memory of its own.
        let answer = unsafe {
            match call {
                Call::Write => ffi::khs_write_frame(
                    originals, a, currents, b, touches, c, ends, d, line, len, first,
                ),
                Call::Read => ffi::khs_read_frame(
                    line, len, originals, a, currents, b, touches, c, ends, d, first, second,
                ),
            }
        };
        self.are_guarded().then(|| (answer, self.held()))
    }

    /// Whether nothing beside a list was written.
    fn are_guarded(&self) -> bool {
        let lists = [&self.originals, &self.currents, &self.touches, &self.ends];
        let rest = [&self.line].into_iter().chain(&self.counts);
        lists.into_iter().chain(rest).all(Memory::is_guarded)
    }

    /// What everything lent holds now.
    fn held(&self) -> Lent {
        Lent {
            points: Points {
                originals: self.originals.held().to_vec(),
                currents: self.currents.held().to_vec(),
                touches: self.touches.held().to_vec(),
                ends: self.ends.held().to_vec(),
            },
            line: self.line.held().to_vec(),
            counts: [self.counts[0].held()[0], self.counts[1].held()[0]],
        }
    }
}

/// The lengths of an outline's lists.
fn lengths(points: &Points) -> [usize; 4] {
    [
        points.originals.len(),
        points.currents.len(),
        points.touches.len(),
        points.ends.len(),
    ]
}

/// What a function does.
fn expected(call: Call, lent: &Lent) -> (u8, Lent) {
    let mut left = lent.clone();
    let answer = match call {
        Call::Read if lengths(&lent.points) != [FRAME_BYTE; 4] => NOT_WORDS,
        Call::Write => number(write(&mut left)),
        Call::Read => number(read(&mut left)),
    };
    (answer, left)
}

/// The number of an answer.
fn number(answer: Answer<()>) -> u8 {
    answer.map_or_else(|refusal| refusal.0 as u8, |()| 0)
}

/// What writing leaves.
fn write(lent: &mut Lent) -> Answer<()> {
    let digits = frames::write_frame(&lent.points, &mut lent.line)?;
    lent.counts[0] = digits as u32;
    Ok(())
}

/// What reading leaves in rooms of their lengths.
fn read(lent: &mut Lent) -> Answer<()> {
    let points = frames::read_frame(&lent.line)?;
    let [count, .., contours] = lengths(&points);
    let rooms = &mut lent.points;
    rooms.originals[..count].copy_from_slice(&points.originals);
    rooms.currents[..count].copy_from_slice(&points.currents);
    rooms.touches[..count].copy_from_slice(&points.touches);
    rooms.ends[..contours].copy_from_slice(&points.ends);
    lent.counts = [count as u32, contours as u32];
    Ok(())
}

/// Compares both functions on so many random cases, and on small ones one after the other.
pub fn frames(count: usize, random: &mut Random) -> Vec<Tally> {
    let mut memories = Memories::new();
    let tally = |call: Call, name: &'static str, memories: &mut Memories, random: &mut Random| {
        let mut tally = Tally::new(name);
        let mut compare = |lent: &Lent, side: Side| {
            let wanted = expected(call, lent);
            with_and_without(side, |side| {
                tally.begin();
                let outcome = memories.run(call, lent, side);
                let same = outcome.as_ref() == Some(&wanted);
                tally.count(wanted.0, same, || {
                    format!("{lent:?}: {outcome:?}, and the oracle {wanted:?}")
                });
            });
        };
        match call {
            Call::Write => small_writes(|lent| compare(lent, Side::Back)),
            Call::Read => small_reads(|lent| compare(lent, Side::Back)),
        }
        for _ in 0..count {
            let lent = case(call, random);
            compare(&lent, random.pick(&[Side::Front, Side::Back]));
        }
        tally
    };
    vec![
        tally(Call::Write, "khs_write_frame", &mut memories, random),
        tally(Call::Read, "khs_read_frame", &mut memories, random),
    ]
}

/// A job of the oracle's, as it is or damaged.
fn case(call: Call, random: &mut Random) -> Lent {
    let profile = random.pick(&[Profile::Mixed, Profile::Small, Profile::Limits]);
    let word = match call {
        Call::Write => 25,
        Call::Read => 26,
    };
    let mut lent = loop {
        let line = generate::line(word, profile, random);
        match text::parse(&line).and_then(|words| decode(&words)) {
            Some(Job::WriteFrame(points, line)) => break Lent::new(points, line),
            Some(Job::ReadFrame(line)) => {
                break Lent::new(rooms([FRAME_BYTE; 4], random.bits() as u16), line);
            }
            _ => {} // a damaged line
        }
    };
    if random.coin() {
        damage(&mut lent, random);
    }
    lent
}

/// Rooms of these lengths, full of a number.
fn rooms(lengths: [usize; 4], number: u16) -> Points {
    Points {
        originals: vec![-i32::from(number); lengths[0]],
        currents: vec![number.into(); lengths[1]],
        touches: vec![number as u8; lengths[2]],
        ends: vec![number; lengths[3]],
    }
}

/// Damages one list: its length, or an entry.
fn damage(lent: &mut Lent, random: &mut Random) {
    let points = &mut lent.points;
    let at = random.below(points.originals.len().max(1));
    let beyond = random.pick(&[i32::MIN, -32_769, 32_768, i32::MAX]);
    let len = random.pick(&[0, 254, 255, 256, 9_000]);
    let byte = random.bits() as u8;
    match random.below(11) {
        0 => points.originals.resize(len, 3),
        1 => points.currents.resize(len, -3),
        2 => points.touches.resize(len, 9),
        3 => points.ends.resize(len, 255),
        4 => drop(points.currents.pop()),
        5 => points.ends.push(random.bits() as u16),
        6 => points
            .originals
            .iter_mut()
            .skip(at)
            .take(1)
            .for_each(|c| *c = beyond),
        7 => points
            .currents
            .iter_mut()
            .skip(at)
            .take(1)
            .for_each(|c| *c = beyond),
        8 => points.touches.fill(byte),
        9 => lent
            .line
            .iter_mut()
            .skip(at)
            .take(1)
            .for_each(|held| *held = byte),
        _ => lent.line.resize(len, byte),
    }
}

/// Lists of every length up to three and about 255, entries at the ends of a byte and of two signed bytes, every mark; each in a line about as long as the digits.
fn small_writes(mut compare: impl FnMut(&Lent)) {
    let mut lines = |points: &Points| {
        let digits = frame_digits(points.originals.len(), points.ends.len());
        for room in [0, digits - 1, digits, digits + 1] {
            compare(&Lent::new(points.clone(), vec![b'x'; room]));
        }
    };
    for set in 0..256usize {
        lines(&rooms([0, 2, 4, 6].map(|shift| set >> shift & 3), 7));
    }
    for points in 252..=258 {
        for contours in [0, 1, 253, 254, 255, 256, 257] {
            lines(&rooms([points, points, points, contours], 9));
        }
    }
    for number in 0..=u16::MAX {
        if number < 300 || number % 256 == 0 || number > 65_000 {
            lines(&rooms([1; 4], number));
        }
    }
    for number in [
        -32_770,
        -32_769,
        -32_768,
        32_767,
        32_768,
        i32::MIN,
        i32::MAX,
    ] {
        let mut points = rooms([2; 4], 5);
        points.originals[1] = number;
        lines(&points);
        points.originals.swap(0, 1);
        std::mem::swap(&mut points.originals, &mut points.currents);
        lines(&points);
    }
}

/// Every beginning of the request's example and every byte at each of its places, lines about as long as the longest frame, and rooms of about 255 places.
fn small_reads(mut compare: impl FnMut(&Lent)) {
    const EXAMPLE: &[u8] = b"010301010000000500000A0063000014001402";
    let full = || rooms([FRAME_BYTE; 4], 7);
    for at in 0..EXAMPLE.len() {
        compare(&Lent::new(full(), EXAMPLE[..at].to_vec()));
        for byte in 0..=u8::MAX {
            let mut line = EXAMPLE.to_vec();
            line[at] = byte;
            compare(&Lent::new(full(), line));
        }
    }
    let mut longest = vec![b'0'; frame_digits(FRAME_BYTE, FRAME_BYTE) + 4];
    longest[..6].copy_from_slice(b"01FFFF");
    for cut in 0..10 {
        let line = &longest[..longest.len() - cut];
        compare(&Lent::new(full(), line.to_vec()));
    }
    for set in 0..256usize {
        let lengths = [0, 2, 4, 6].map(|shift| [0, 254, 255, 256][set >> shift & 3]);
        for line in [EXAMPLE, b"01"] {
            compare(&Lent::new(rooms(lengths, 7), line.to_vec()));
        }
    }
}
