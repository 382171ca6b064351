//! Finding items in a given file.

use crate::edits::{Part, Taken};

/// The taken part of a file's text, with a line feed in front.
pub fn take(taken: &Taken, text: &str) -> String {
    let lines: Vec<&str> = text.lines().collect();
    let mut code = String::from("\n");
    match taken.part {
        Part::From(line) => {
            let first = only(&lines, taken.file, line, |l| l == line);
            push(&mut code, &lines[first..]);
        }
        Part::Items(names) => {
            for name in names {
                let (first, last) = item(&lines, taken.file, name);
                push(&mut code, &lines[first..=last]);
            }
        }
    }
    code
}

/// Appends lines.
fn push(code: &mut String, lines: &[&str]) {
    for line in lines {
        code.push_str(line);
        code.push('\n');
    }
}

/// The first and last line of an item, its comment and attributes included.
fn item(lines: &[&str], file: &str, name: &str) -> (usize, usize) {
    let head = only(lines, file, name, |line| heads(line, name));
    let mut first = head;
    while first > 0 && (lines[first - 1].starts_with("//") || lines[first - 1].starts_with('#')) {
        first -= 1;
    }
    let size = lines[head..].iter().position(|line| *line == "}");
    (first, head + size.expect("an item ends with a brace"))
}

/// Whether a line begins the item of this name.
fn heads(line: &str, name: &str) -> bool {
    let line = line.strip_prefix("pub(crate) ").unwrap_or(line);
    line.starts_with(&format!("fn {name}(")) || line.starts_with(&format!("enum {name} {{"))
}

/// The only line that a test finds.
fn only(lines: &[&str], file: &str, what: &str, test: impl Fn(&str) -> bool) -> usize {
    let found: Vec<usize> = (0..lines.len()).filter(|ix| test(lines[*ix])).collect();
    assert_eq!(found.len(), 1, "{file} has one {what}");
    found[0]
}
