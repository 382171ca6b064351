//! The command `oracle`.

#[cfg(feature = "count")]
use oracle::count;
use oracle::{
    answer::{answer_line, NOT_A_JOB},
    calls,
    decode::decode,
    explain,
    generate::{self, small_axes::PARTS, Profile, Random, PROFILES},
    job::{name_of, Job},
    joined, log, mender,
    ranges::Ranges,
    streams::{self, Plain},
    text,
    words::encode,
};
use std::{
    collections::{BTreeMap, BTreeSet},
    env, fs,
    io::{self, BufRead, BufWriter, Read, Write},
    process::ExitCode,
};

/// How the command is used.
const USAGE: &str = "usage:
  oracle answer                 job lines on stdin to answer lines on stdout
  oracle gen --call N --count C --seed S --profile mixed|small|limits|damaged
  oracle patterns --call 15|16  paths of every mark pattern up to 12 points
  oracle patterns --call 18|19|20   references and drags of every outline up to 4 points
  oracle patterns --call 128    edge points of every segment over up to 4 points, and of every two over up to 3
  oracle patterns --call 129    small axes fitted: every choice with every two edges, every outline of up to 3 points with up to 2 segments, and the m
  oracle patterns --call 131    strong points of every table of up to 4 edges, and of 7 to 11
  oracle patterns --call 132    what is shown of every outline of up to 4 points over 3 places a way, and of every picture of 4 by 4 pixels
  oracle axes --call 121|123 --part P   every axis of up to three segments and two edges, in sixteen parts from 0 on
  oracle explain                job lines on stdin, decoded with their answers
  oracle diff JOBS FIRST SECOND compares two files of answers to the jobs
  oracle tally                  job lines on stdin: answers per call and number
  oracle fallback               jobs of stems and of blues and stems on stdin: how many had zones, and took the fallback
  oracle ranges --call N        jobs of outlines or of an axis on stdin: how many were done in the old range and beyond it, and refused by 8
  oracle refit                  a log of frames on stdin to its replies on stdout
  oracle mend [--axes]          a file of saved axes on stdin to what is altered, or to the axes mended
  oracle stream --count C --seed S   prints a made-up log of good frames
  oracle log --count C --seed S PROGRAM [WORD..]   compares what a program replies to made-up logs
  oracle saved --count C --seed S PROGRAM [WORD..]   compares what a program prints for made-up files of saved axes, and with --axes behind
  oracle branches --count C --seed S   (feature `count`) branches of the given Rust";

/// Runs the subcommand that the words name.
fn main() -> ExitCode {
    let words: Vec<String> = env::args().skip(1).collect();
    let words: Vec<&str> = words.iter().map(String::as_str).collect();
    let done = match words.as_slice() {
        ["answer"] => answer(),
        ["gen", options @ ..] => gen(options),
        ["patterns", options @ ..] => patterns(options),
        ["axes", "--call", call, "--part", part] => small_axes(call, part),
        ["explain"] => explain_lines(),
        ["diff", jobs, first, second] => return diff(jobs, first, second),
        ["tally"] => tally(),
        ["fallback"] => return fallback(),
        ["ranges", "--call", call] => ranges(call),
        ["refit"] => Some(refit()),
        ["mend"] => Some(mend(false)),
        ["mend", "--axes"] => Some(mend(true)),
        ["stream", "--count", count, "--seed", seed] => stream(count, seed),
        ["log", "--count", count, "--seed", seed, program @ ..] => {
            return compare_programs(&[streams::REFIT], count, seed, program)
        }
        ["saved", "--count", count, "--seed", seed, program @ ..] => {
            return compare_programs(&[streams::MEND, streams::MEND_AXES], count, seed, program)
        }
        #[cfg(feature = "count")]
        ["branches", options @ ..] => return branches(options),
        _ => return usage(),
    };
    match done {
        Some(Ok(())) => ExitCode::SUCCESS,
        Some(Err(error)) if error.kind() == io::ErrorKind::BrokenPipe => ExitCode::SUCCESS,
        Some(Err(error)) => failed(&error),
        None => usage(),
    }
}

/// What a command came to: nothing where its options are wrong.
type Done = Option<io::Result<()>>;

/// Says how the command is used.
fn usage() -> ExitCode {
    eprintln!("{USAGE}");
    ExitCode::from(2)
}

/// Says what went wrong.
fn failed(error: &io::Error) -> ExitCode {
    eprintln!("oracle: {error}");
    ExitCode::from(2)
}

/// Hands every line of stdin, without its line feed, to an action that may write.
fn each_line(mut action: impl FnMut(&[u8], &mut dyn Write) -> io::Result<()>) -> io::Result<()> {
    let mut input = io::stdin().lock();
    let mut output = BufWriter::with_capacity(1 << 16, io::stdout().lock());
    let mut line = Vec::new();
    while input.read_until(b'\n', &mut line)? > 0 {
        let end = line.strip_suffix(b"\n").unwrap_or(&line);
        action(end, &mut output)?;
        line.clear();
    }
    output.flush()
}

/// Answers job lines.
fn answer() -> Done {
    Some(each_line(|line, output| {
        writeln!(output, "{}", answer_line(line))
    }))
}

/// Decodes job lines.
fn explain_lines() -> Done {
    Some(each_line(|line, output| {
        writeln!(output, "{}", explain::explain(line))
    }))
}

/// The value of a named option.
fn option<'a>(options: &[&'a str], name: &str) -> Option<&'a str> {
    let at = options.iter().position(|option| *option == name)?;
    options.get(at + 1).copied()
}

/// A numeric option.
fn number(options: &[&str], name: &str) -> Option<u64> {
    option(options, name)?.parse().ok()
}

/// Prints made-up job lines.
fn gen(options: &[&str]) -> Done {
    let call = usize::try_from(number(options, "--call")?).ok()?;
    let count = number(options, "--count")?;
    let mut random = Random::new(number(options, "--seed")?);
    let name = option(options, "--profile")?;
    let profile = PROFILES.iter().find(|profile| profile.0 == name)?.1;
    name_of(call).filter(|_| options.len() == 8)?;
    Some(print(call, count, profile, &mut random))
}

/// Writes so many job lines.
fn print(call: usize, count: u64, profile: Profile, random: &mut Random) -> io::Result<()> {
    let mut output = BufWriter::with_capacity(1 << 16, io::stdout().lock());
    for _ in 0..count {
        output.write_all(&generate::line(call, profile, random))?;
        output.write_all(b"\n")?;
    }
    output.flush()
}

/// Prints the path's jobs of every mark pattern, or the jobs of every outline of few points.
fn patterns(options: &[&str]) -> Done {
    let mut output = BufWriter::with_capacity(1 << 16, io::stdout().lock());
    let mut print = |job: &Job| writeln!(output, "{}", text::write(&encode(job).values));
    let printed = match options {
        ["--call", "15"] => generate::patterns::jobs(false, &mut print),
        ["--call", "16"] => generate::patterns::jobs(true, &mut print),
        ["--call", "18"] => generate::few::remember(&mut print),
        ["--call", "19"] => generate::few::align(&mut print),
        ["--call", "20"] => generate::few::drag(&mut print),
        ["--call", "128"] => generate::edge_points::small(&mut print),
        ["--call", "129"] => generate::fit::small(&mut print),
        ["--call", "131"] => generate::strong::small(&mut print),
        ["--call", "132"] => generate::shown::small(&mut print),
        _ => return None,
    };
    Some(printed.and_then(|()| output.flush()))
}

/// The call that a job line names, or 0.
fn call_of(line: &[u8]) -> usize {
    let word = line.get(..8).and_then(text::parse);
    let call = word.and_then(|word| usize::try_from(word[0]).ok());
    call.filter(|call| name_of(*call).is_some()).unwrap_or(0)
}

/// A call's name, for a report.
fn name(call: usize) -> &'static str {
    name_of(call).unwrap_or("names no call")
}

/// Counts answers per call and document 01's number.
fn tally() -> Done {
    let mut counts: BTreeMap<usize, BTreeMap<i32, u64>> = BTreeMap::new();
    let counted = each_line(|line, _| {
        let answer = text::parse(&answer_line(line).as_bytes()[..8]).unwrap_or_default();
        let row = counts.entry(call_of(line)).or_default();
        *row.entry(answer[0]).or_default() += 1;
        Ok(())
    });
    let numbers: BTreeSet<i32> = counts.values().flat_map(BTreeMap::keys).copied().collect();
    print!("{:30}", "call");
    for number in &numbers {
        print!(" {:>9}", column(*number));
    }
    println!();
    for (call, row) in &counts {
        print!("{:30}", name(*call));
        for number in &numbers {
            print!(" {:>9}", row.get(number).unwrap_or(&0));
        }
        println!();
    }
    Some(counted)
}

/// Counts of the stem pass alone, and behind blues, what was done: all, with a zone, and by the fallback, which status 1 tells of behind blues.
fn fallback() -> ExitCode {
    let mut counts = [
        ("align_stem_edges", [0; 3]),
        ("align_blues_and_stems", [0; 3]),
    ];
    let counted = each_line(|line, _| {
        let job = text::parse(line).and_then(|words| decode(&words));
        let (call, edges, fitted) = match job {
            Some(Job::Stems(edges, given)) => {
                let fitted = calls::fitted_stems(&mut edges.clone(), &given);
                (0, edges, fitted)
            }
            Some(Job::Joined(edges, given)) => {
                let fitted = joined::align_blues_and_stems(&mut edges.clone(), &given);
                (1, edges, fitted)
            }
            _ => return Ok(()),
        };
        if let Ok(fitted) = fitted {
            let [all, with_zone, by_fallback] = &mut counts[call].1;
            *all += 1;
            *with_zone += u64::from(joined::has_zone(&edges));
            *by_fallback += u64::from(fitted.fallbacks > 0);
        }
        Ok(())
    });
    if let Err(error) = counted {
        return failed(&error);
    }
    for (name, [all, with_zone, by_fallback]) in counts {
        println!("{name:30} {all:>9} done, {with_zone} with a zone, {by_fallback} by the fallback");
    }
    ExitCode::from(u8::from(counts[1].1[2] > 0))
}

/// Counts of a call's jobs what was done in the old range, by the given Rust, and beyond it, and what was refused by 8.
fn ranges(call: &str) -> Done {
    let call = call.parse().ok().filter(|call| name_of(*call).is_some())?;
    let mut ranges = Ranges::default();
    let counted = each_line(|line, _| {
        let job = text::parse(line).and_then(|words| decode(&words));
        if let Some(job) = job.filter(|_| call_of(line) == call) {
            ranges.count(job);
        }
        Ok(())
    });
    let Ranges {
        old,
        beyond,
        refused_by_8,
    } = ranges;
    println!(
        "{:30} {old:>9} done in the old range, {beyond} beyond it, {refused_by_8} refused by 8",
        name(call)
    );
    Some(counted)
}

/// The title of an answer's column.
fn column(number: i32) -> String {
    match number {
        NOT_A_JOB => String::from("no job"),
        0 => String::from("done"),
        _ => number.to_string(),
    }
}

/// Prints every small axis of a part, as jobs of a call.
fn small_axes(call: &str, part: &str) -> Done {
    let pack = match call {
        "121" => false,
        "123" => true,
        _ => return None,
    };
    let part = part.parse().ok().filter(|part| *part < PARTS)?;
    let mut output = BufWriter::with_capacity(1 << 16, io::stdout().lock());
    let mut print = |job: &Job| writeln!(output, "{}", text::write(&encode(job).values));
    let printed = generate::small_axes::jobs(pack, part, &mut print);
    Some(printed.and_then(|()| output.flush()))
}

/// Mends a file of saved axes.
fn mend(axes: bool) -> io::Result<()> {
    let output = BufWriter::with_capacity(1 << 16, io::stdout().lock());
    mender::run(io::stdin().lock(), output, axes)
}

/// Answers a log.
fn refit() -> io::Result<()> {
    let output = BufWriter::with_capacity(1 << 16, io::stdout().lock());
    log::refit(io::stdin().lock(), output)
}

/// Prints a log of good frames.
fn stream(count: &str, seed: &str) -> Done {
    let (count, seed) = (count.parse().ok()?, seed.parse().ok()?);
    let stream = generate::good_log(count, &mut Random::new(seed));
    Some(io::stdout().lock().write_all(&stream))
}

/// Compares what a program prints with what plain ones do, for made-up inputs of so many lines together each.
fn compare_programs(plain: &[Plain], count: &str, seed: &str, program: &[&str]) -> ExitCode {
    let (Ok(count), Ok(seed), false) = (count.parse(), seed.parse(), program.is_empty()) else {
        return usage();
    };
    for plain in plain {
        let program = [program, plain.words].concat();
        match streams::compare(plain, &program, count, &mut Random::new(seed)) {
            Ok(true) => {}
            Ok(false) => return ExitCode::FAILURE,
            Err(error) => return failed(&error),
        }
    }
    ExitCode::SUCCESS
}

/// Compares two files of answers, and shows the first differences decoded.
fn diff(jobs: &str, first: &str, second: &str) -> ExitCode {
    let read = |path: &str| -> io::Result<Vec<u8>> {
        let mut text = Vec::new();
        fs::File::open(path)?.read_to_end(&mut text)?;
        Ok(text)
    };
    match (read(jobs), read(first), read(second)) {
        (Ok(jobs), Ok(first), Ok(second)) => compare(&jobs, &first, &second),
        (Err(error), ..) | (_, Err(error), _) | (_, _, Err(error)) => failed(&error),
    }
}

/// How many differences are shown.
const SHOWN: usize = 5;

/// Counts per call what agreed.
fn compare(jobs: &[u8], first: &[u8], second: &[u8]) -> ExitCode {
    let (jobs, first, second) = (text::lines(jobs), text::lines(first), text::lines(second));
    if jobs.len() != first.len() || jobs.len() != second.len() {
        println!(
            "{} jobs, {} and {} answers",
            jobs.len(),
            first.len(),
            second.len()
        );
        return ExitCode::FAILURE;
    }
    let mut agreed: BTreeMap<usize, u64> = BTreeMap::new();
    let mut differ = 0;
    for (ix, job) in jobs.iter().enumerate() {
        if first[ix] == second[ix] {
            *agreed.entry(call_of(job)).or_default() += 1;
            continue;
        }
        differ += 1;
        if differ <= SHOWN {
            println!(
                "line {}: {}",
                ix + 1,
                explain::difference(job, first[ix], second[ix])
            );
        }
    }
    for (call, count) in agreed {
        println!("{:30} {count:>9} agree", name(call));
    }
    println!("{differ} of {} differ", jobs.len());
    ExitCode::from(u8::from(differ > 0))
}

/// Runs made-up jobs of all calls and profiles and reports the branches.
#[cfg(feature = "count")]
fn branches(options: &[&str]) -> ExitCode {
    let (Some(count), Some(seed)) = (number(options, "--count"), number(options, "--seed")) else {
        return usage();
    };
    let mut random = Random::new(seed);
    for (call, _) in oracle::job::CALLS {
        for (_, profile) in PROFILES {
            for _ in 0..count {
                let line = count::uncounted(|| generate::line(*call, profile, &mut random));
                answer_line(&line);
            }
        }
    }
    let (report, complete) = count::report();
    print!("{report}");
    ExitCode::from(u8::from(!complete))
}
