//! How many cases of a function agreed, by their answers.

use crate::ffi;
use oracle::refusals::Refusal;
use std::{
    fmt::Debug,
    sync::atomic::{AtomicUsize, Ordering},
};

/// The answers that are counted.
pub const ANSWERS: [u8; 12] = [0, 1, 2, 3, 4, 5, 6, 7, 8, 9, 10, 255];
/// So many differences of a function are shown.
const SHOWN: usize = 3;

/// The case that is being run, for the word about one that left its lists.
static CASE: AtomicUsize = AtomicUsize::new(0);

/// The cases of one function.
pub struct Tally {
    pub name: &'static str,
    pub cases: usize,
    pub answers: [usize; ANSWERS.len()],
    pub different: usize,
}

impl Tally {
    /// No case yet.
    pub fn new(name: &'static str) -> Self {
        eprintln!("boundary: {name}");
        CASE.store(0, Ordering::Relaxed);
        Self {
            name,
            cases: 0,
            answers: [0; ANSWERS.len()],
            different: 0,
        }
    }

    /// A case is run now.
    pub fn begin(&self) {
        CASE.store(self.cases + 1, Ordering::Relaxed);
    }

    /// Runs a case, and holds its answer and what its lists then hold to the oracle's.
    pub fn compare<G: Clone + Debug + PartialEq>(
        &mut self,
        given: &G,
        oracle: impl FnOnce(&mut G) -> Result<(), Refusal>,
        run: impl FnOnce() -> Option<(u8, G)>,
    ) {
        let mut expected = given.clone();
        let answer = match oracle(&mut expected) {
            Ok(()) => 0,
            Err(Refusal(number)) => number as u8,
        };
        self.begin();
        let outcome = run();
        let same = outcome.as_ref() == Some(&(answer, expected.clone()));
        self.count(answer, same, || {
            format!("{given:?}: {outcome:?}, and the oracle {answer}, {expected:?}")
        });
    }

    /// Counts a case under the expected answer, and shows the first that differ.
    pub fn count(&mut self, answer: u8, same: bool, show: impl FnOnce() -> String) {
        self.cases += 1;
        let ix = ANSWERS.iter().position(|known| *known == answer);
        self.answers[ix.expect("the answer is a known one")] += 1;
        if !same {
            self.different += 1;
            if self.different <= SHOWN {
                println!("{}, case {}: {}", self.name, self.cases, show());
            }
        }
    }
}

/// Stops with a word where a function reads or writes memory that is shut.
pub fn watch() {
    for number in [ffi::SIGBUS, ffi::SIGSEGV] {
        // SAFETY: the handler ends the process.
        unsafe { ffi::signal(number, stop) };
    }
}

/// Says which case left its lists, and ends.
extern "C" fn stop(_: i32) {
    let case = CASE.load(Ordering::Relaxed);
    eprintln!("boundary: case {case} of that function read or wrote outside of its lists");
    // SAFETY: the process ends.
    unsafe { ffi::_exit(1) }
}
