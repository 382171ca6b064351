//! FreeType's own routines on the same inputs, timed beside the library and the given Rust.

use crate::{
    cases::{self, Case, Role},
    glyph, library, one_call, port, records, table,
    time::{self, Side},
};
use khsaemudol::{Edge, Flags, Mark, EDGE_WORDS};
use oracle::{job::Job, limits::EDGES};

/// The calls that FreeType has a routine for; for the last two it is the same one.
const NAMES: [&str; 5] = ["weak", "link", "build", "stems", "joined"];

/// A job as tools/freetype/fit.c holds it.
#[repr(C)]
struct Held {
    _private: [u8; 0],
}

extern "C" {
    /// A job of these words.
    fn fit_new(words: *const i32) -> *mut Held;
    /// Gives it back.
    fn fit_free(fit: *mut Held);
    /// Sets anew what the call changes.
    fn fit_restore(fit: *mut Held);
    /// Calls FreeType's routine.
    fn fit_work(fit: *mut Held);
    /// Writes the lists that the call left, the last that was made, and tells how many words they are.
    fn fit_lists(fit: *mut Held, out: *mut i32) -> usize;
}

/// FreeType's side of a job.
struct Fit(*mut Held);

impl Fit {
    /// A job of these words, which must be accepted.
    fn new(words: &[i32]) -> Self {
        // SAFETY: the words are those of a job that fit.c takes, and are not kept.
        Self(unsafe { fit_new(words.as_ptr()) })
    }

    /// The lists that the call leaves.
    fn lists(&mut self) -> Vec<i32> {
        self.restore();
        self.work();
        let mut out = vec![0; port::LONGEST];
        // SAFETY: the job is live and lent to this call alone, and its lists are no longer than the longest answer.
        let count = unsafe { fit_lists(self.0, out.as_mut_ptr()) };
        out.truncate(count);
        out
    }
}

impl Side for Fit {
    fn restore(&mut self) {
        // SAFETY: the job is live and lent to this call alone.
        unsafe { fit_restore(self.0) }
    }

    fn work(&mut self) {
        // SAFETY: the same.
        unsafe { fit_work(self.0) }
    }
}

impl Drop for Fit {
    fn drop(&mut self) {
        // SAFETY: the job is live, and this is its last use.
        unsafe { fit_free(self.0) }
    }
}

/// Prints a table for each call that FreeType has a routine for.
pub fn run() {
    println!("Median times of a call in nanoseconds: of the library as gateways call it, with all tests, of the given Rust, and of FreeType 2.12.1's own routine by cc -O2, both in place");
    println!("and without tests. FreeType has zones, stems, serifs and remaining edges in one function: it stands beside `stems`, where no edge has a zone, and beside `joined`. None of");
    println!("these edges is a serif; those that CJK's stems pass over FreeType goes on to place, within its time. All else that it leaves was found to be what the library leaves.");
    println!("`fit` is an axis of 71 points in one call: FreeType's function, and its edge points, which snap, strong points and weak points in a row behind it. Size: edges.");
    for name in NAMES {
        let mut cases = cases::cases(name);
        cases.retain(|case| case.role == Role::Own);
        print(name, &cases);
    }
    print("fit", &cases::GROUPS.map(|(_, group)| kept_heights(group)));
}

/// The heights of a group's glyphs in one call, with widths kept.
fn kept_heights(group: &str) -> Case {
    let chain = cases::cases(&format!("{group}, each axis in one call"));
    let heights = chain
        .into_iter()
        .find(|case| case.kind == "heights, fitting");
    let mut case = heights.expect("a chain fits the heights");
    case.jobs.iter_mut().for_each(one_call::keep_widths);
    Case {
        kind: group.to_string(),
        size: glyph::EDGES,
        ..case
    }
}

/// Prints the table of a call's cases.
fn print(name: &str, cases: &[Case]) {
    println!("\n{name}");
    println!(
        "{:40} {:>5} {:>10} {:>10} {:>10} {:>13} {:>13}",
        "inputs", "size", "port", "Rust", "FreeType", "port/FreeType", "Rust/FreeType"
    );
    cases.iter().for_each(row);
}

/// Measures a case and prints its line.
fn row(case: &Case) {
    let mut port = table::ports(&case.jobs, case.role);
    let mut rust = table::rusts(&case.jobs);
    let mut freetype: Vec<Fit> = case.jobs.iter().map(|words| Fit::new(words)).collect();
    table::compare(&case.jobs);
    for (job, fit) in case.jobs.iter().zip(&mut freetype) {
        compare(job, &fit.lists());
    }
    let times = time::medians([&mut port, &mut rust, &mut freetype]);
    let [port, rust, freetype] = times.map(|time| time / case.jobs.len() as f64);
    println!(
        "{:40} {:5} {port:10.1} {rust:10.1} {freetype:10.1} {:13.2} {:13.2}",
        case.kind,
        case.size,
        port / freetype,
        rust / freetype,
    );
}

/// Sees that FreeType leaves the lists that the library does.
fn compare(words: &[i32], lists: &[i32]) {
    let answer = library::answer(words);
    match table::job(words) {
        // count and anchor, too, stand in front of the edges
        Job::Stems(..) | Job::Joined(..) => compare_edges(&answer[3..], lists),
        Job::Fit(..) => compare_axis(&answer[1 + one_call::REFUSED.len()..], lists),
        _ => assert_eq!(&answer[1..], lists, "the results differ"),
    }
}

/// Sees that FreeType leaves the edges that the library does, but for marks and for those that the library leaves undone.
fn compare_edges(ours: &[i32], theirs: &[i32]) {
    let edges = |list: &[i32]| -> Vec<Edge> { records::given(&[&[0], list].concat(), EDGES) };
    for (ours, theirs) in edges(ours).into_iter().zip(edges(theirs)) {
        let undone = !ours.flags().contains(Flags::DONE);
        let same = ours.with_mark(Mark::Nothing) == theirs;
        assert!(undone || same, "the results differ: {ours:?}, {theirs:?}");
    }
}

/// Sees that FreeType leaves the edges and the currents that the library does, whose touch marks stand behind them.
fn compare_axis(ours: &[i32], theirs: &[i32]) {
    let (ours, ours_currents) = ours.split_at(1 + EDGE_WORDS * ours[0] as usize);
    let (theirs, theirs_currents) = theirs.split_at(ours.len());
    compare_edges(ours, theirs);
    assert!(
        ours_currents.starts_with(theirs_currents),
        "the currents differ: {ours_currents:?}, {theirs_currents:?}"
    );
}
