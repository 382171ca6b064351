//! Branch counters: the edit that is made with the feature `count` alone.
//!
//! - every operand of `&&` and `||`, and every condition of `if` and `while`: `crate::count::seen(id, condition)`
//! - every `if let` and `let .. else`: a call of `crate::count::went` on both sides
//! - every `?`: `.counted(id)` in front of it
//! - every match arm: a call of `crate::count::went` in front of its value

use crate::{
    edits::Taken,
    tokens::{tokens, Token},
};

/// A counted branch: where it stands, and its text.
pub struct Branch {
    file: &'static str,
    line: usize,
    text: String,
    one_sided: bool,
}

/// The counted branches as a Rust table.
pub fn table(branches: &[Branch]) -> String {
    let mut code = String::from("&[\n");
    for b in branches {
        code.push_str(&format!(
            "Branch {{ file: {:?}, line: {}, text: {:?}, one_sided: {} }},\n",
            b.file, b.line, b.text, b.one_sided
        ));
    }
    code.push(']');
    code
}

/// The code with its used functions' branches counted.
pub fn instrument(taken: &Taken, original: &str, code: &str, branches: &mut Vec<Branch>) -> String {
    let mut work = Work {
        file: taken.file,
        original,
        code,
        tokens: tokens(code),
        insertions: Vec::new(),
        branches,
    };
    for name in taken.used {
        work.function(name);
    }
    let mut insertions = work.insertions;
    insertions.sort_by_key(|(at, rank, _)| (*at, *rank));
    let mut counted = String::from("#[allow(unused_imports)]\nuse crate::count::Counted;\n");
    let mut done = 0;
    for (at, _, text) in insertions {
        counted.push_str(&code[done..at]);
        counted.push_str(&text);
        done = at;
    }
    counted + &code[done..]
}

/// One file's work: its tokens and what is to be inserted where, by rank at equal places.
struct Work<'a> {
    file: &'static str,
    original: &'a str,
    code: &'a str,
    tokens: Vec<Token>,
    insertions: Vec<(usize, u8, String)>,
    branches: &'a mut Vec<Branch>,
}

impl Work<'_> {
    /// A token's text, empty beyond the end.
    fn text(&self, ix: usize) -> &str {
        self.tokens
            .get(ix)
            .map_or("", |token| &self.code[token.start..token.end])
    }

    /// Counts the branches of one function.
    fn function(&mut self, name: &str) {
        let Some(head) =
            (1..self.tokens.len()).find(|ix| self.text(*ix) == name && self.text(ix - 1) == "fn")
        else {
            return;
        };
        let open = self.next_open(head);
        let close = self.closing(open);
        let mut ranges = Vec::new();
        let mut ix = open;
        while ix < close {
            match self.text(ix) {
                // Recording is no branch of the rules.
                "if" if self.text(ix + 4) == "recorder" => ix = self.closing(self.next_open(ix)),
                "if" if self.text(ix + 1) == "let" => self.if_let(ix),
                "if" | "while" => ranges.push((ix + 1, self.next_open(ix))),
                "&&" | "||" => ranges.push(self.operands(ix)),
                "then_some" => ranges.extend(self.group_before(ix - 1)),
                "else" if self.text(ix - 1) != "}" => self.let_else(ix),
                "?" => self.question(ix),
                "match" => self.arms(ix),
                _ => {}
            }
            ix += 1;
        }
        ranges.sort_unstable();
        ranges.dedup();
        for (first, end) in ranges {
            self.conditions(first, end);
        }
    }

    /// The first `{` behind a token, outside of parentheses.
    fn next_open(&self, from: usize) -> usize {
        let mut ix = from + 1;
        while self.text(ix) != "{" {
            ix = if matches!(self.text(ix), "(" | "[") {
                self.closing(ix) + 1
            } else {
                ix + 1
            };
        }
        ix
    }

    /// The token that closes the group which opens here.
    fn closing(&self, open: usize) -> usize {
        let mut depth = 0;
        for ix in open.. {
            match self.text(ix) {
                "(" | "[" | "{" => depth += 1,
                ")" | "]" | "}" => depth -= 1,
                _ => {}
            }
            if depth == 0 {
                return ix;
            }
        }
        unreachable!("groups close")
    }

    /// The token that opens the group which closes here.
    fn opening(&self, close: usize) -> usize {
        (0..close)
            .rev()
            .find(|ix| matches!(self.text(*ix), "(" | "[" | "{") && self.closing(*ix) == close)
            .expect("groups open")
    }

    /// The parenthesised condition that a method's dot stands behind, if it is no argument list.
    fn group_before(&self, dot: usize) -> Option<(usize, usize)> {
        let open = self.opening(dot - 1);
        let named = self
            .text(open - 1)
            .starts_with(|c: char| c.is_alphanumeric());
        (!named).then_some((open, dot))
    }

    /// The range of tokens that an `&&` or `||` joins.
    fn operands(&self, operator: usize) -> (usize, usize) {
        let mut first = operator;
        loop {
            match self.text(first - 1) {
                "(" | "[" | "{" | ";" | "," | "=" | "=>" | "if" | "while" => break,
                ")" | "]" => first = self.opening(first - 1),
                _ => first -= 1,
            }
        }
        let mut end = operator;
        loop {
            match self.text(end) {
                ")" | "]" | "}" | "{" | ";" | "," => break,
                "(" | "[" => end = self.closing(end) + 1,
                _ => end += 1,
            }
        }
        (first, end)
    }

    /// Counts each operand of a range.
    fn conditions(&mut self, first: usize, end: usize) {
        let mut start = first;
        let mut ix = first;
        while ix < end {
            match self.text(ix) {
                "(" | "[" => ix = self.closing(ix),
                "&&" | "||" => {
                    self.condition(start, ix);
                    start = ix + 1;
                }
                _ => {}
            }
            ix += 1;
        }
        self.condition(start, end);
    }

    /// Counts one condition.
    fn condition(&mut self, first: usize, end: usize) {
        let (start, stop) = (self.tokens[first].start, self.tokens[end - 1].end);
        let id = self.branch(start, stop, false);
        self.insert(start, 5, format!("crate::count::seen({id}, "));
        self.insert(stop, 0, ")".into());
    }

    /// Counts both sides of an `if let`.
    fn if_let(&mut self, ix: usize) {
        let open = self.next_open(ix);
        let close = self.closing(open);
        let id = self.branch(self.tokens[ix].start, self.tokens[open].start, false);
        self.insert(self.tokens[open].end, 1, went(id, true));
        let behind = self.tokens[close].end;
        if self.text(close + 1) != "else" {
            self.insert(behind, 2, format!(" else {{{} }}", went(id, false)));
        } else if self.text(close + 2) == "if" {
            let start = self.tokens[close + 2].start;
            let end = self.tokens[self.chain_end(close + 2)].end;
            self.insert(start, 1, format!("{{{} ", went(id, false)));
            self.insert(end, 3, " }".into());
        } else {
            self.insert(self.tokens[close + 2].end, 1, went(id, false));
        }
    }

    /// The last brace of a chain of `if`, `else if` and `else`.
    fn chain_end(&self, ix: usize) -> usize {
        let close = self.closing(self.next_open(ix));
        match (self.text(close + 1), self.text(close + 2)) {
            ("else", "if") => self.chain_end(close + 2),
            ("else", _) => self.closing(close + 2),
            _ => close,
        }
    }

    /// Counts both sides of a `let .. else`.
    fn let_else(&mut self, ix: usize) {
        let close = self.closing(ix + 1);
        let start = (0..ix).rev().find(|ix| self.text(*ix) == "let");
        let start = self.tokens[start.expect("a let stands in front")].start;
        let id = self.branch(start, self.tokens[ix].end, false);
        self.insert(self.tokens[ix + 1].end, 1, went(id, false));
        self.insert(self.tokens[close + 1].end, 1, went(id, true));
    }

    /// Counts both sides of a `?`.
    fn question(&mut self, ix: usize) {
        let at = self.tokens[ix].start;
        let line = self.code[..at].rfind('\n').map_or(0, |start| start + 1);
        let id = self.branch(line, at + 1, false);
        self.insert(at, 1, format!(".counted({id})"));
    }

    /// Counts the arms of a match.
    fn arms(&mut self, ix: usize) {
        let open = self.next_open(ix);
        let close = self.closing(open);
        let mut start = open + 1;
        while start < close {
            let arrow = (start..close).find(|ix| self.text(*ix) == "=>");
            let arrow = arrow.expect("an arm has an arrow");
            let id = self.branch(self.tokens[start].start, self.tokens[arrow].end, true);
            if self.text(arrow + 1) == "{" {
                let last = self.closing(arrow + 1);
                self.insert(self.tokens[arrow + 1].end, 1, went(id, true));
                start = last + 1 + usize::from(self.text(last + 1) == ",");
                continue;
            }
            let (_, end) = self.operands(arrow + 1);
            self.insert(self.tokens[arrow].end, 1, format!(" {{{}", went(id, true)));
            self.insert(self.tokens[end - 1].end, 1, " }".into());
            start = end + 1;
        }
    }

    /// Notes a branch and returns its number.
    fn branch(&mut self, start: usize, end: usize, one_sided: bool) -> usize {
        let text = self.code[start..end].trim();
        let text = text.split_whitespace().collect::<Vec<_>>().join(" ");
        let line = self.line(start);
        self.branches.push(Branch {
            file: self.file,
            line,
            text,
            one_sided,
        });
        self.branches.len() - 1
    }

    /// The line of the given file that a place of the code stands in.
    fn line(&self, place: usize) -> usize {
        let head = self.code[..place].rfind("fn ").map_or(0, |at| at + 3);
        let name = self.code[head..].split('(').next().unwrap_or_default();
        let behind = self.code[head..place].matches('\n').count();
        let head = self.original.lines().position(|line| {
            line.trim_start()
                .trim_start_matches("pub(crate) ")
                .starts_with(&format!("fn {name}("))
        });
        head.unwrap_or_default() + 1 + behind
    }

    /// Notes an insertion.
    fn insert(&mut self, at: usize, rank: u8, text: String) {
        self.insertions.push((at, rank, text));
    }
}

/// The statement that counts one side.
fn went(id: usize, side: bool) -> String {
    format!(" crate::count::went({id}, {side});")
}
