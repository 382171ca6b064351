//! Job lines answered.

use oracle::{answer::NOT_A_JOB, text};
use std::io::{self, BufRead, BufWriter, Write};

/// Answers the lines of stdin on stdout, each by the answer to its words.
pub fn run(answer: fn(&[i32]) -> Vec<i32>) -> io::Result<()> {
    let mut output = BufWriter::with_capacity(1 << 16, io::stdout().lock());
    for line in io::stdin().lock().split(b'\n') {
        let words = text::parse(&line?);
        let answer = words.map_or(vec![NOT_A_JOB], |words| answer(&words));
        writeln!(output, "{}", text::write(&answer))?;
    }
    output.flush()
}
