//! Instructions counted by valgrind's callgrind, which runs this program once more for each case and side, and collects within `bench_counted` alone.

use crate::{cases, table, time::Side};
use std::{
    env, fs,
    hint::black_box,
    io,
    process::{self, Command},
};

/// Where callgrind writes.
const FILE: &str = "target/callgrind.out";

/// The two sides.
pub const SIDES: [&str; 2] = ["port", "rust"];

/// The instructions of a call of a case, the port's and the Rust's; nothing where there is no valgrind.
pub fn counts(name: &str, ix: usize, jobs: usize) -> Option<[f64; 2]> {
    // What one copy of the jobs adds: so what may be counted on the way out goes away.
    let count = |side| {
        let [one, two] = [1, 2].map(|copies| total(name, ix, side, copies));
        Some((two.ok()?? - one.ok()??) / jobs as f64)
    };
    let [port, rust] = SIDES.map(count);
    Some([port?, rust?])
}

/// The instructions of some copies of a case on a side.
fn total(name: &str, ix: usize, side: &str, copies: usize) -> io::Result<Option<f64>> {
    Command::new("valgrind")
        .arg("--tool=callgrind")
        .arg("--toggle-collect=bench_counted")
        .arg(format!("--callgrind-out-file={FILE}"))
        .arg(env::current_exe()?)
        .args(["counted", name, &ix.to_string(), side, &copies.to_string()])
        .output()?;
    let text = fs::read_to_string(FILE)?;
    fs::remove_file(FILE)?;
    let line = text.lines().find_map(|line| line.strip_prefix("totals: "));
    Ok(line.and_then(|total| total.trim().parse().ok()))
}

/// Works on some copies of a case once on a side, for callgrind.
pub fn run(name: &str, ix: &str, side: &str, copies: &str) {
    let (Ok(ix), Ok(copies)) = (ix.parse::<usize>(), copies.parse()) else {
        return;
    };
    let Some(case) = cases::cases(name).into_iter().nth(ix) else {
        return;
    };
    let jobs = vec![case.jobs; copies].concat();
    if side == SIDES[0] {
        counted(&mut table::ports(&jobs, case.role));
    } else {
        counted(&mut table::rusts(&jobs));
    }
}

/// Works once, and ends the program, so that nothing is dropped behind it.
fn counted(side: &mut dyn Side) -> ! {
    side.restore();
    bench_counted(side);
    process::exit(0)
}

/// What is counted.
#[no_mangle]
#[inline(never)]
fn bench_counted(side: &mut dyn Side) {
    side.work();
    black_box(());
}
