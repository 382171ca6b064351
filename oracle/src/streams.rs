//! What another program prints for made-up logs, or files of saved axes, which it is handed through a pipe in pieces of any size.

use crate::{
    generate::{self, Random},
    limits::{EDGES, SEGMENTS},
    log::{refit, reply},
    mender,
    refusals::FRAME_DIGITS,
};
use std::{
    collections::BTreeMap,
    ffi::{c_int, c_ulong},
    io::{self, Read, Write},
    os::fd::AsRawFd,
    process::{ChildStdin, Command, Stdio},
    thread,
    time::{Duration, Instant},
};

/// The most lines of a log.
const LINES: usize = 40;
/// How long the writer waits for the program to take a piece, before it goes on.
const PATIENCE: Duration = Duration::from_secs(5);

/// A program, written plainly, that others are compared with.
pub struct Plain {
    /// What its input is called.
    name: &'static str,
    /// Makes up an input of about so many lines.
    input: fn(usize, &mut Random) -> Vec<u8>,
    /// Prints what the program does.
    print: fn(&[u8], &mut Vec<u8>) -> io::Result<()>,
    /// Of what kind its answer to a line is.
    answer: fn(&[u8]) -> String,
    /// The digits of the longest line that it reads.
    longest: usize,
    /// What it is asked by, behind its name.
    pub words: &'static [&'static str],
}

/// The program `refit`.
pub const REFIT: Plain = Plain {
    name: "logs",
    input: generate::log,
    print: |log, output| refit(log, output),
    answer: |line| match reply(line).as_slice() {
        [b'8', b'1', ..] => "81..".into(),
        other => String::from_utf8_lossy(other).into_owned(),
    },
    longest: FRAME_DIGITS,
    words: &[],
};

/// The program `mend`, which tells what it alters.
pub const MEND: Plain = Plain {
    name: "files",
    input: generate::file,
    print: |file, output| mender::run(file, output, false),
    answer: |line| {
        let told = mender::told(line.strip_suffix(b"\n").unwrap_or(line));
        match told[0].split_once(',').map_or(&*told[0], |told| told.0) {
            told if told.contains("->") => "mended".into(),
            told => told.into(),
        }
    },
    longest: AXIS_DIGITS,
    words: &[],
};

/// The same where it prints the axes.
pub const MEND_AXES: Plain = Plain {
    print: |file, output| mender::run(file, output, true),
    words: &["--axes"],
    ..MEND
};

/// The digits of the longest axis: eight a word, of a call's word, two counts, segments and edges.
const AXIS_DIGITS: usize = 8 * (3 + 15 * SEGMENTS + 12 * EDGES);

/// Compares what a program prints for inputs of so many lines together, and tells what was in them; false at the first difference.
pub fn compare(
    plain: &Plain,
    program: &[&str],
    count: usize,
    random: &mut Random,
) -> io::Result<bool> {
    let mut tally = Tally::default();
    while tally.lines < count {
        let lines = random.pick(&[0, 1, 1, 2, 3, 8, LINES, LINES]);
        let input = (plain.input)(lines, random);
        let pieces = pieces(&input, random);
        let mut expected = Vec::new();
        (plain.print)(&input, &mut expected)?;
        let got = replies(program, &pieces, random.below(4) > 0)?;
        if got != expected {
            println!("{}", difference(&input, &expected, &got));
            return Ok(false);
        }
        tally.add(plain, &input, pieces.len());
    }
    println!("{}", tally.told(plain));
    Ok(true)
}

/// A log in pieces: whole, cut anywhere, or cut about its line feeds.
fn pieces<'a>(log: &'a [u8], random: &mut Random) -> Vec<&'a [u8]> {
    let kind = random.below(8);
    let step = random.pick(&[1, 2, 7, 61, 997, 3_065, 3_066, 3_067, 4_095, 4_097]);
    let mut cuts = Vec::new();
    let mut at = 0;
    while at < log.len() && cuts.len() < 2_000 {
        let feed = log[at..].iter().position(|byte| *byte == b'\n');
        let feed = feed.map_or(log.len(), |feed| at + feed);
        at = match kind {
            0 => log.len(),
            1 => at + step,
            2 => feed + 1,
            3 if at < feed => feed,
            3 => feed + 1,
            4 => feed + random.below(3),
            _ => at + 1 + random.below(2 * step),
        }
        .max(at + 1);
        cuts.push(at.min(log.len()));
    }
    let mut first = 0;
    let mut pieces = Vec::new();
    for cut in cuts.into_iter().chain([log.len()]) {
        if first < cut {
            pieces.push(&log[first..cut]);
        }
        first = cut;
    }
    pieces
}

/// What a program prints when it is handed these pieces, each behind the other or as soon as the one before is taken.
fn replies(program: &[&str], pieces: &[&[u8]], waiting: bool) -> io::Result<Vec<u8>> {
    let mut child = Command::new(program[0])
        .args(&program[1..])
        .stdin(Stdio::piped())
        .stdout(Stdio::piped())
        .spawn()?;
    let (input, output) = (child.stdin.take(), child.stdout.take());
    let mut printed = Vec::new();
    thread::scope(|scope| {
        if let Some(input) = input {
            scope.spawn(move || hand_over(input, pieces, waiting));
        }
        output.map_or(Ok(0), |mut output| output.read_to_end(&mut printed))
    })?;
    let status = child.wait()?;
    if !status.success() {
        return Err(io::Error::other(format!("{} ended: {status}", program[0])));
    }
    Ok(printed)
}

/// Writes the pieces; a program that ends early shows by what it printed.
fn hand_over(mut input: ChildStdin, pieces: &[&[u8]], waiting: bool) {
    for piece in pieces {
        if input.write_all(piece).is_err() {
            return;
        }
        let start = Instant::now();
        while waiting && untaken(&input) > 0 && start.elapsed() < PATIENCE {
            thread::yield_now();
        }
    }
}

extern "C" {
    fn ioctl(file: c_int, request: c_ulong, ...) -> c_int;
}

/// How many bytes stand in a pipe that were not read yet.
fn untaken(pipe: &ChildStdin) -> c_int {
    // Linux, on the processors that the port is compared on.
    const FIONREAD: c_ulong = 0x541B;
    let mut bytes: c_int = 0;
    // SAFETY: the pipe is open, and this request writes one int.
    let status = unsafe { ioctl(pipe.as_raw_fd(), FIONREAD, &mut bytes as *mut c_int) };
    assert_eq!(status, 0, "a pipe tells what stands in it");
    bytes
}

/// The first line whose replies differ.
fn difference(log: &[u8], expected: &[u8], got: &[u8]) -> String {
    let lines: Vec<&[u8]> = log.split_inclusive(|byte| *byte == b'\n').collect();
    let (ours, theirs): (Vec<&[u8]>, Vec<&[u8]>) = (
        expected.split_inclusive(|byte| *byte == b'\n').collect(),
        got.split_inclusive(|byte| *byte == b'\n').collect(),
    );
    let agree = ours.iter().zip(&theirs).take_while(|(a, b)| a == b).count();
    // a reply may have the number of its line in front, and not be the only one to it
    let reply = ours.get(agree).map(|reply| String::from_utf8_lossy(reply));
    let number = reply.and_then(|reply| reply.split_once(':')?.0.parse().ok());
    let at = number.map_or(agree, |number: usize| number - 1);
    let shown = |lines: &[&[u8]], at: usize| {
        let line = lines.get(at).copied().unwrap_or(b"nothing");
        let tail = if line.len() > 200 { ".." } else { "" };
        let head = &line[..line.len().min(200)];
        format!("{}{tail} ({} bytes)", head.escape_ascii(), line.len())
    };
    format!(
        "line {} of {}: {}\nthe Rust:    {}\nthe program: {}",
        at + 1,
        lines.len(),
        shown(&lines, at),
        shown(&ours, agree),
        shown(&theirs, agree)
    )
}

/// What was compared.
#[derive(Default)]
struct Tally {
    inputs: usize,
    empty: usize,
    pieces: usize,
    lines: usize,
    kinds: BTreeMap<String, usize>,
    answers: BTreeMap<String, usize>,
}

impl Tally {
    /// Counts an input.
    fn add(&mut self, plain: &Plain, input: &[u8], pieces: usize) {
        self.inputs += 1;
        self.empty += usize::from(input.is_empty());
        self.pieces += pieces;
        for line in input.split_inclusive(|byte| *byte == b'\n') {
            self.lines += 1;
            for kind in kinds(line, plain.longest) {
                *self.kinds.entry(kind).or_default() += 1;
            }
            *self.answers.entry((plain.answer)(line)).or_default() += 1;
        }
    }

    /// The counts, for a person.
    fn told(&self, plain: &Plain) -> String {
        let listed = |rows: Vec<(&str, &usize)>| {
            let rows: Vec<String> = rows.iter().map(|(name, n)| format!("{n} {name}")).collect();
            rows.join(", ")
        };
        format!(
            "{} {} ({} empty) in {} pieces, {} lines, all replies equal\nreplies: {}\nlines: {}",
            self.inputs,
            plain.name,
            self.empty,
            self.pieces,
            self.lines,
            listed(self.answers.iter().map(|(a, n)| (a.as_str(), n)).collect()),
            listed(self.kinds.iter().map(|(k, n)| (k.as_str(), n)).collect()),
        )
    }
}

/// What is notable about a line, which is given with its line feed where it has one, to a program that reads so many digits.
fn kinds(line: &[u8], longest: usize) -> Vec<String> {
    let digits = line.strip_suffix(b"\n").unwrap_or(line);
    let notable = [
        (digits.is_empty(), "empty".into()),
        (digits.len() == longest, format!("of {longest} digits")),
        (digits.len() == longest + 1, format!("of {}", longest + 1)),
        (digits.len() == longest + 2, format!("of {}", longest + 2)),
        (digits.len() > longest + 2, "of more".into()),
        (digits.len() == line.len(), "without a line feed".into()),
        (digits.ends_with(b"\r"), "with a carriage return".into()),
        (
            digits.iter().any(u8::is_ascii_lowercase),
            "with lower case".into(),
        ),
    ];
    let held = notable.into_iter().filter(|(holds, _)| *holds);
    held.map(|(_, name)| name).collect()
}
