//! Jobs and answers decoded for a person.

use crate::{
    answer::answer,
    decode::decode,
    job::name_of,
    text,
    words::{encode, Words},
};

/// A job line and its answer, field by field.
pub fn explain(line: &[u8]) -> String {
    let Some(job) = text::parse(line).and_then(|words| decode(&words)) else {
        return String::from("not a job\n");
    };
    let words = encode(&job);
    let name = name_of(call_of(&words)).unwrap_or_default();
    let answer = answer(job);
    format!(
        "{name}\n{}answer\n{}",
        fields(&words, &words.values, |_| true),
        fields(&answer, &answer.values, |_| true)
    )
}

/// The word of a job's call.
fn call_of(job: &Words) -> usize {
    usize::try_from(job.values[0]).expect("a job's call is positive")
}

/// How two answers to one job differ: the job, then both answers where they differ.
pub fn difference(job: &[u8], ours: &[u8], theirs: &[u8]) -> String {
    let mut shown = explain(job);
    let parsed = text::parse(job).and_then(|words| decode(&words));
    let shape = parsed.map(answer);
    let (first, second) = (text::parse(ours), text::parse(theirs));
    match (shape, first, second) {
        (Some(shape), Some(a), Some(b)) if same_size(&shape, &a, &b) => {
            let differs = |ix: usize| a[ix] != b[ix];
            shown += &format!(
                "first answer, where they differ\n{}",
                fields(&shape, &a, differs)
            );
            shown += &format!("second answer, there\n{}", fields(&shape, &b, differs));
        }
        _ => {
            shown += &format!("first answer   {}\n", String::from_utf8_lossy(ours));
            shown += &format!("second answer  {}\n", String::from_utf8_lossy(theirs));
        }
    }
    shown
}

/// Whether two answers have the shape of ours.
fn same_size(shape: &Words, a: &[i32], b: &[i32]) -> bool {
    shape.values.len() == a.len() && a.len() == b.len()
}

/// Values under the names of words, those that are asked for, a line per record or list.
fn fields(words: &Words, values: &[i32], shown: impl Fn(usize) -> bool) -> String {
    let mut text = String::new();
    let mut heads = words.heads.iter().peekable();
    let (mut title, mut row) = (String::new(), String::new());
    for (ix, value) in values.iter().enumerate() {
        while let Some((_, name, number)) = heads.next_if(|head| head.0 == ix) {
            flush(&mut text, &title, &mut row);
            title = match *name {
                "" => String::new(),
                name => format!(" {name} {number}:"),
            };
        }
        if shown(ix) {
            row += &field(words.names[ix], *value);
        }
    }
    flush(&mut text, &title, &mut row);
    text
}

/// Ends a line that has something on it.
fn flush(text: &mut String, title: &str, row: &mut String) {
    if !row.is_empty() {
        *text += &format!(" {title}{row}\n");
        row.clear();
    }
}

/// One field; of a list's numbers the value alone.
fn field(name: &str, value: i32) -> String {
    match name {
        "call" => String::new(),
        "font" | "original" | "current" | "touch" | "weak" | "end" | "standard" | "x" | "y"
        | "mark" | "points" | "contours" | "own answer" | "number before" | "number behind" => {
            format!(" {value}")
        }
        "place.x" => format!(" ({}", f32::from_bits(value as u32)),
        "place.y" => format!(" {})", f32::from_bits(value as u32)),
        "no place" if value == 0 => String::new(),
        "byte" => u8::try_from(value).map_or_else(
            |_| format!(" {value}"),
            |byte| byte.escape_ascii().to_string(),
        ),
        _ => {
            let short = name.rsplit('.').next().unwrap_or_default();
            format!(" {short}={}", shown_value(short, value))
        }
    }
}

/// A value in words where it has some.
fn shown_value(name: &str, value: i32) -> String {
    let words: &[&str] = match name {
        "flags" => return flags(value),
        "direction" | "major direction" => &["none", "right", "left", "up", "down"],
        "group" => &["default", "CJK"],
        "dimension" => &["horizontal", "vertical"],
        "width rule" => &["keep", "snap"],
        "kind" => &["finished", "move", "line", "curve", "close"],
        "mark" => &[
            "nothing yet",
            "blue anchor",
            "blue",
            "linked",
            "anchor",
            "stem",
            "adjusted",
            "bound",
            "serif",
            "lowercase m",
            "between",
            "spaced",
            "remaining anchor",
        ],
        "table" => &["segments", "edges"],
        "field" => &["link", "serif", "next", "first", "last"],
        "next" | "edge" | "link" | "serif" | "anchor" | "lower" | "upper" | "first edge"
        | "second edge" | "old" | "new"
            if value == -1 =>
        {
            return String::from("none");
        }
        _ => &[],
    };
    let word = usize::try_from(value).ok().and_then(|ix| words.get(ix));
    word.map_or_else(|| value.to_string(), |word| String::from(*word))
}

/// Flags by their names.
fn flags(value: i32) -> String {
    let names = ["round", "serif", "done", "neutral"];
    let set = (0..4).filter(|bit| value >> bit & 1 == 1);
    let named: Vec<&str> = set.map(|bit| names[bit]).collect();
    match value {
        0 => String::from("-"),
        1..=15 => named.join("+"),
        _ => value.to_string(),
    }
}
