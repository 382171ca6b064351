//! The program `mend` of request #107, written plainly: a file of saved axes, each a line, the job of call 121.

use crate::{
    decode::decode,
    job::{Edge, Job, Segment, Table},
    mend::{mend, Alteration, Field, Side},
    refusals::{empty_edge, Refusal},
    text,
    words::encode,
};
use std::io::{self, BufRead, Write};

/// Prints what is altered of each axis, a line for each field; or, where the axes are asked for, each axis mended, and a line of which none is made as it came.
pub fn run(mut input: impl BufRead, mut output: impl Write, axes: bool) -> io::Result<()> {
    let mut line = Vec::new();
    for number in 1u64.. {
        if input.read_until(b'\n', &mut line)? == 0 {
            break;
        }
        let given = line.strip_suffix(b"\n").unwrap_or(&line);
        if axes {
            output.write_all(&mended(given))?;
            output.write_all(b"\n")?;
        } else {
            for told in told(given) {
                writeln!(output, "{number}: {told}")?;
            }
        }
        line.clear();
    }
    output.flush()
}

/// The axis that a line is, if it is one.
fn axis(line: &[u8]) -> Option<(Table<Segment>, Table<Edge>)> {
    match text::parse(line).and_then(|words| decode(&words)) {
        Some(Job::Mend(segments, edges)) => Some((segments, edges)),
        _ => None,
    }
}

/// What is told of a line, without its number.
pub fn told(line: &[u8]) -> Vec<String> {
    let Some((mut segments, mut edges)) = axis(line) else {
        return vec!["not an axis".into()];
    };
    match mend(&mut segments, &mut edges) {
        Ok(altered) if altered.is_empty() => vec!["nothing to mend".into()],
        Ok(altered) => altered.iter().map(field).collect(),
        Err(Refusal(7)) => {
            let edge = empty_edge(&segments, &edges).expect("7 is for an edge without segments");
            vec![format!("refused by 7, edge {edge} has no segments")]
        }
        Err(Refusal(number)) => vec![format!("refused by {number}")],
    }
}

/// A field that was altered, with its old and its new value.
fn field(alteration: &Alteration) -> String {
    let record = match alteration.side {
        Side::Segments => "segment",
        Side::Edges => "edge",
    };
    let name = match alteration.field {
        Field::Link => "link",
        Field::Serif => "serif",
        Field::Next => "next",
        Field::First => "first",
        Field::Last => "last",
    };
    let value = |index: Option<u16>| index.map_or("none".into(), |ix| ix.to_string());
    let (old, new) = (value(alteration.old), value(alteration.new));
    format!("{record} {} {name} {old} -> {new}", alteration.index)
}

/// A line with its axis mended, or as it came.
fn mended(line: &[u8]) -> Vec<u8> {
    let mended = axis(line).and_then(|(mut segments, mut edges)| {
        mend(&mut segments, &mut edges).ok()?;
        Some(Job::Mend(segments, edges))
    });
    mended.map_or(line.to_vec(), |job| {
        text::write(&encode(&job).values).into_bytes()
    })
}
