//! How far a long run is, on standard error: a bar where that is a terminal, and else a line a second.

use std::{
    io::{self, IsTerminal, Write},
    time::{Duration, Instant},
};

/// How long nothing is said.
const PATIENCE: Duration = Duration::from_secs(1);

/// How often a bar is drawn anew.
const FRAME: Duration = Duration::from_millis(100);

/// The length of a bar.
const WIDTH: usize = 40;

/// How many glyphs are done of how many.
pub struct Progress {
    done: usize,
    all: usize,
    begun: Instant,
    told: Instant,
    /// Whether a bar is on the terminal, which is wiped in the end.
    drawn: bool,
}

impl Progress {
    /// Of so many glyphs none is done.
    pub fn of(all: usize) -> Self {
        Self {
            done: 0,
            all,
            begun: Instant::now(),
            told: Instant::now(),
            drawn: false,
        }
    }

    /// One more is done.
    pub fn step(&mut self) {
        self.done += 1;
        let is_terminal = io::stderr().is_terminal();
        let pause = if is_terminal { FRAME } else { PATIENCE };
        if self.begun.elapsed() < PATIENCE || self.told.elapsed() < pause {
            return;
        }
        self.told = Instant::now();
        if is_terminal {
            self.bar();
        } else {
            eprintln!("specimen: {} of {} glyphs are fitted", self.done, self.all);
        }
    }

    fn bar(&mut self) {
        self.drawn = true;
        let full = WIDTH * self.done / self.all.max(1);
        let (done, rest) = ("#".repeat(full), "-".repeat(WIDTH - full));
        let mut terminal = io::stderr();
        // a terminal that is gone is no reason to stop
        let _ = write!(terminal, "\r[{done}{rest}] {} of {}", self.done, self.all);
        let _ = terminal.flush();
    }
}

impl Drop for Progress {
    fn drop(&mut self) {
        if self.drawn {
            eprint!("\r\x1b[K");
        }
    }
}
