//! Times and instruction counts of both sides, as tables.

use crate::{
    cases::{self, Case, Role},
    count, library, port,
    time::{self, Side},
};
use oracle::{answer, decode, job::Job, prepared};
use std::hint::black_box;

/// What a case came to, for a call.
pub struct Row {
    pub name: &'static str,
    pub kind: String,
    pub size: usize,
    /// The times of the port and of the Rust.
    port: f64,
    rust: f64,
    /// The time of the port refused, where that is less than its time.
    reading: Option<f64>,
    /// The instructions of the port and of the Rust, where they were counted.
    counted: Option<[f64; 2]>,
}

impl Row {
    /// Port/Rust.
    pub fn ratio(&self) -> f64 {
        self.port / self.rust
    }

    /// Measures a case.
    fn of(case: Case, counted: Option<[f64; 2]>) -> Self {
        let [port, refused, rust] = measure(&case);
        Self {
            name: case.name,
            kind: case.kind,
            size: case.size,
            port,
            rust,
            reading: (refused < port).then_some(refused),
            counted,
        }
    }

    /// What rows come to together.
    pub fn sum(rows: &[Self], name: &'static str, kind: String, size: usize) -> Self {
        let counted = |side: usize| rows.iter().map(|row| Some(row.counted?[side])).sum();
        let [port, rust]: [Option<f64>; 2] = [0, 1].map(counted);
        Self {
            name,
            kind,
            size,
            port: rows.iter().map(|row| row.port).sum(),
            rust: rows.iter().map(|row| row.rust).sum(),
            reading: rows.iter().map(|row| row.reading).sum(),
            counted: port.zip(rust).map(<[f64; 2]>::from),
        }
    }

    /// Prints the line of a row.
    pub fn print(&self) {
        let shown = |number: Option<f64>, digits| {
            number.map_or("-".to_string(), |number| format!("{number:.digits$}"))
        };
        let less = self.reading.map(|part| (self.port - part) / self.rust);
        let instructions = match self.counted {
            Some([port, rust]) => format!("{port:10.0} {rust:10.0} {:9.2}", port / rust),
            None => "not counted".to_string(),
        };
        println!(
            "{:40} {:5} {:10.1} {:>10} {:10.1} {:9.2} {:>9} | {instructions}",
            self.kind,
            self.size,
            self.port,
            shown(self.reading, 1),
            self.rust,
            self.ratio(),
            shown(less, 2),
        );
    }
}

/// Prints a table for each of the calls, and hands back its rows, but for those of calls beside it.
pub fn run(names: &[&str]) -> Vec<Row> {
    explain();
    names.iter().copied().flat_map(table).collect()
}

/// Says what the tables have.
pub fn explain() {
    println!("Median times of a call; setting back what it changes is not timed. The port is the library as gateways call it, from words to words (lent: its job):");
    println!("`reading` is its time if its last test refuses it: what reading and testing take, and, of a call that works in place, finding which test refuses, which it does only then");
    println!(
        "(-: more than the call takes). The Rust works on its vectors in place, without tests."
    );
}

/// Prints the table of a name, and hands back the rows of its own cases.
pub fn table(name: &str) -> Vec<Row> {
    println!("\n{name}");
    println!(
        "{:40} {:>5} {:>10} {:>10} {:>10} {:>9} {:>9} | {:>10} {:>10} {:>9}",
        "inputs",
        "size",
        "port ns",
        "reading",
        "Rust ns",
        "port/Rust",
        "less it",
        "port ins.",
        "Rust ins.",
        "port/Rust"
    );
    let mut rows = Vec::new();
    for (ix, case) in cases::cases(name).into_iter().enumerate() {
        let counted = count::counts(name, ix, case.jobs.len());
        let own = case.role == Role::Own;
        let row = Row::of(case, counted);
        row.print();
        rows.extend(own.then_some(row));
    }
    rows
}

/// The times of the port, of the port refused, and of the Rust, for a call.
fn measure(case: &Case) -> [f64; 3] {
    let mut port = ports(&case.jobs, case.role);
    let mut refused = ports(&case.refused, case.role);
    let mut rust = rusts(&case.jobs);
    compare(&case.jobs);
    let times = time::medians([&mut port, &mut refused, &mut rust]);
    times.map(|time| time / case.jobs.len() as f64)
}

/// The job that words are.
pub fn job(words: &[i32]) -> Job {
    decode::decode(words).expect("the words are a job")
}

/// The library's side of jobs.
pub fn ports(jobs: &[Vec<i32>], role: Role) -> Vec<port::Prepared> {
    let prepared = |words: &Vec<i32>| match job(words) {
        Job::MLent(..) => port::Prepared::by_job(words),
        Job::Joined(_, given) if role == Role::Apart => port::Prepared::apart(given, words),
        Job::Fit(segments, _, given) if role == Role::Apart => {
            port::Prepared::in_a_row(segments.items.len(), given, words)
        }
        job => port::Prepared::new(job, words),
    };
    jobs.iter().map(prepared).collect()
}

/// The given Rust's side of jobs.
pub fn rusts(jobs: &[Vec<i32>]) -> Vec<prepared::Prepared> {
    let prepared = |words: &Vec<i32>| prepared::Prepared::new(job(words));
    jobs.iter().map(prepared).collect()
}

/// Sees that both sides answer jobs alike, and that they are done.
pub fn compare(jobs: &[Vec<i32>]) {
    for words in jobs {
        let port = library::answer(words);
        assert_eq!(port[0], 0, "the port refused");
        assert_eq!(
            port,
            answer::answer(job(words)).values,
            "the results differ"
        );
    }
}

impl Side for port::Prepared {
    fn restore(&mut self) {
        self.restore();
    }

    fn work(&mut self) {
        let _ = black_box(black_box(self).run());
    }
}

impl Side for prepared::Prepared {
    fn restore(&mut self) {
        self.restore();
    }

    fn work(&mut self) {
        black_box(self).run();
    }
}
