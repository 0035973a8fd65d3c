//! bench SHEET                      the names of the classes; SHEET is the small decoder's sheet
//! bench SHEET times [CLASS]...     nanoseconds for a sheet of each class, as a table
//! bench SHEET grow                 nanoseconds for sheets of 1, 2, 4, .. KB of each class that grows, as CSV
//! bench SHEET sizes                the names of these sheets, NAME@BYTES, which `times` and `once` take for a CLASS too
//! bench SHEET once CLASS WORK      one piece of work inside the function `bench_measured`, for callgrind; WORK is one of
//!   ours     the library's whole call, with a buffer of 65,536 bytes: check of the sheet, analysis, report, zeros
//!   fitting  the same with a buffer as long as the report
//!   crate    `module_info_from_swc` alone, on a tree that was built before, with the release of what it answers
//!   whole    the crate with the oracle's decoding of the sheet before it and the encoding of the report behind it
//! bench SHEET folder DIRECTORY PROGRAM COMMAND    how many of DIRECTORY's sheets are cited in a second, as a table: by the library, by PROGRAM
//!                                  (started for each, the sheet on its input) and by COMMAND (started once, the sheets as its arguments)
//! Environment: ROUNDS (15; at most 5 where one piece of work takes more than ten rounds), MILLISECONDS of a round (20).

mod sheets;

use std::hint::black_box;
use std::path::PathBuf;
use std::process::{Command, Stdio};
use std::time::{Duration, Instant};

use oracle::Parsed;
use sheets::Class;

const LARGE: usize = 65_536;
const USAGE: &str = "usage: bench SHEET [times [CLASS]... | grow | sizes | once CLASS WORK | folder DIRECTORY PROGRAM COMMAND]";
const WORKS: [&str; 4] = ["ours", "fitting", "crate", "whole"];

fn main() {
    let args: Vec<String> = std::env::args().skip(1).collect();
    let args: Vec<&str> = args.iter().map(String::as_str).collect();
    let [sheet, rest @ ..] = &args[..] else { fail(USAGE) };
    let small = std::fs::read(sheet).unwrap_or_else(|e| fail(&format!("{sheet}: {e}")));
    let classes = sheets::classes(small);
    let named = |name: &str| classes.iter().find(|c| c.name == name).cloned().or_else(|| grown(name));
    let class = |name: &str| named(name).unwrap_or_else(|| fail(&format!("no class is named {name}")));
    match rest {
        [] => classes.iter().for_each(|c| println!("{}", c.name)),
        ["times"] => times(&classes),
        ["times", names @ ..] => times(&names.iter().map(|n| class(n)).collect::<Vec<_>>()),
        ["grow"] => grow(),
        ["sizes"] => sizes().for_each(|(name, bytes)| println!("{name}@{bytes}")),
        ["once", name, work] => once(&class(name), work),
        ["folder", directory, program, command] => folder(directory, program, command),
        _ => fail(USAGE),
    }
}

/// The classes that grow, each at 1, 2, 4, .. KB.
fn sizes() -> impl Iterator<Item = (&'static str, usize)> {
    sheets::GROWING.into_iter().flat_map(|(name, most)| (10..=16).map(move |k| (name, 1 << k)).filter(move |(_, bytes)| *bytes <= most))
}

/// The class of a name NAME@BYTES.
fn grown(name: &str) -> Option<Class> {
    let (name, bytes) = name.split_once('@')?;
    let (name, bytes) = sizes().find(|(n, b)| *n == name && b.to_string() == bytes)?;
    Some(Class { name, what: name, sheet: sheets::grown(name, bytes)? })
}

fn fail(message: &str) -> ! {
    eprintln!("bench: {message}");
    std::process::exit(2)
}

fn setting(name: &str, default: u64) -> u64 {
    match std::env::var(name) {
        Ok(value) => value.parse().unwrap_or_else(|_| fail(&format!("{name} is no number"))),
        Err(_) => default,
    }
}

/// A class's sheet, with all that is made before the clock runs.
struct Ready<'a> {
    sheet: &'a [u8],
    parsed: Parsed,
    buffer: Vec<u8>,
    length: usize,
}

impl Ready<'_> {
    /// Both answers must agree. This also compiles the crate's patterns, which it does once in a process.
    fn new(class: &Class) -> Ready<'_> {
        let sheet = &class.sheet[..];
        let (number, report) = oracle::answer(sheet);
        if number != 0 {
            fail(&format!("{}: the sheet is refused ({number})", class.name));
        }
        let mut buffer = vec![0xA5; LARGE];
        if module_info::module_info(sheet, &mut buffer) != Ok(report.len()) || buffer[..report.len()] != report {
            fail(&format!("{}: the library and the crate differ", class.name));
        }
        let parsed = oracle::sheet::decode(sheet).map(Parsed::new).unwrap_or_else(|_| fail("the sheet is refused"));
        Ready { sheet, parsed, buffer, length: report.len() }
    }

    fn run(&mut self, work: &str) {
        let sheet = black_box(self.sheet);
        match work {
            "ours" => drop(black_box(module_info::module_info(sheet, black_box(&mut self.buffer)))),
            "fitting" => drop(black_box(module_info::module_info(sheet, black_box(&mut self.buffer[..self.length])))),
            "crate" => drop(black_box(black_box(&self.parsed).module_info())),
            "whole" => drop(black_box(oracle::answer(sheet))),
            _ => fail(&format!("no work is named {work}")),
        }
    }
}

// ---- one run, for callgrind ----

fn once(class: &Class, work: &str) {
    let mut ready = Ready::new(class);
    bench_measured(&mut ready, work);
}

/// What callgrind counts by this name.
#[unsafe(no_mangle)]
#[inline(never)]
fn bench_measured(ready: &mut Ready, work: &str) {
    ready.run(work);
}

// ---- times ----

fn times(classes: &[Class]) {
    let rounds = setting("ROUNDS", 15).max(1) as usize;
    let round = Duration::from_millis(setting("MILLISECONDS", 20).max(1));
    println!(
        "| class | sheet, bytes | report, bytes | ours, ns | ours, fitting buffer, ns | crate alone, ns | ours / crate alone | crate whole, ns | ours / crate whole | spread |"
    );
    println!("|---|--:|--:|--:|--:|--:|--:|--:|--:|--:|");
    for class in classes {
        let mut ready = Ready::new(class);
        let results = measure(&mut ready, rounds, round);
        let [ours, fitting, alone, whole] = results.map(|r| r.median);
        let spread = results.iter().map(|r| r.spread).fold(0.0, f64::max);
        println!(
            "| {} | {} | {} | {ours:.0} | {fitting:.0} | {alone:.0} | {:.2} | {whole:.0} | {:.2} | {:.0} % |",
            class.what,
            class.sheet.len(),
            ready.length,
            ours / alone,
            ours / whole,
            100.0 * spread
        );
    }
    println!();
    println!(
        "ours: the library's whole call, from the sheet's bytes to the report and the zeros in a buffer of 65,536 bytes, or in one as long as the report"
    );
    println!(
        "crate alone: module_info_from_swc on a tree that was built before; crate whole: with the oracle's decoding and encoding around it"
    );
    println!(
        "each time is the median of the rounds; spread: the middle half of the rounds as a share of the median, the largest of the four"
    );
}

/// One line for each size of each class that grows: class, bytes of the sheet, ours, crate alone, crate whole.
fn grow() {
    let rounds = setting("ROUNDS", 15).max(1) as usize;
    let round = Duration::from_millis(setting("MILLISECONDS", 20).max(1));
    println!("class,bytes,ours,alone,whole");
    for (name, bytes) in sizes() {
        let class = grown(&format!("{name}@{bytes}")).unwrap_or_else(|| fail("a size that no class has"));
        let [ours, _, alone, whole] = measure(&mut Ready::new(&class), rounds, round).map(|r| r.median);
        println!("{name},{},{ours:.0},{alone:.0},{whole:.0}", class.sheet.len());
    }
}

#[derive(Clone, Copy)]
struct Time {
    /// Nanoseconds, the median of the rounds.
    median: f64,
    /// The middle half of the rounds, as a share of the median.
    spread: f64,
}

/// The works take turns, round by round, so that what else the machine does falls on all of them.
fn measure(ready: &mut Ready, rounds: usize, round: Duration) -> [Time; 4] {
    let plans = WORKS.map(|work| turns_for(ready, work, round));
    // a work that takes far more than a round gets fewer
    let rounds = if plans.iter().any(|(_, took)| *took > 10 * round) { rounds.min(5) } else { rounds };
    let mut all = WORKS.map(|_| Vec::new());
    for _ in 0..rounds {
        for ((work, (turns, _)), times) in WORKS.iter().zip(plans).zip(&mut all) {
            times.push(clock(ready, work, turns));
        }
    }
    all.map(|mut times| {
        times.sort_by(f64::total_cmp);
        let at = |share: f64| times[((times.len() - 1) as f64 * share).round() as usize];
        Time { median: at(0.5), spread: (at(0.75) - at(0.25)) / at(0.5) }
    })
}

/// How often a work is done in one round, and how long that takes.
fn turns_for(ready: &mut Ready, work: &str, round: Duration) -> (u32, Duration) {
    let mut turns = 1;
    loop {
        let took = Duration::from_nanos((clock(ready, work, turns) * f64::from(turns)) as u64);
        if took >= round / 2 || turns >= 1 << 24 {
            return (turns, took);
        }
        turns *= 2;
    }
}

/// Nanoseconds for one piece of work, over so many.
fn clock(ready: &mut Ready, work: &str, turns: u32) -> f64 {
    let start = Instant::now();
    for _ in 0..turns {
        ready.run(work);
    }
    start.elapsed().as_nanos() as f64 / f64::from(turns)
}

// ---- a folder of sheets ----

/// One line for each way to cite all sheets of a folder, one after the other: how many a second. The least time of the rounds, start included.
fn folder(directory: &str, program: &str, command: &str) {
    let files = std::fs::read_dir(directory).unwrap_or_else(|e| fail(&format!("{directory}: {e}")));
    let mut files: Vec<PathBuf> = files.filter_map(|f| Some(f.ok()?.path())).collect();
    files.sort();
    let sheets: Vec<Vec<u8>> = files.iter().map(|f| std::fs::read(f).unwrap_or_else(|e| fail(&format!("{}: {e}", f.display())))).collect();
    let bytes: usize = sheets.iter().map(Vec::len).sum();
    let mut buffer = vec![0; LARGE];
    println!("| {} sheets, {bytes} bytes | sheets in a second | microseconds for a sheet |", sheets.len());
    println!("|---|--:|--:|");
    let line = |what: &str, time: Duration| {
        let each = time.as_secs_f64() / sheets.len() as f64;
        println!("| {what} | {:.0} | {:.1} |", 1.0 / each, 1e6 * each);
    };
    line(
        "the library, in one process",
        least(|| {
            sheets.iter().for_each(|s| _ = black_box(module_info::module_info(s, &mut buffer)));
        }),
    );
    line("the program `cite`, started for each", least(|| files.iter().for_each(|f| cite_one(program, f))));
    line("`bin/cite`, started once", least(|| run(Command::new(command).args(&files))));
}

fn cite_one(program: &str, sheet: &PathBuf) {
    let input = std::fs::File::open(sheet).unwrap_or_else(|e| fail(&format!("{}: {e}", sheet.display())));
    run(Command::new(program).stdin(input));
}

fn run(command: &mut Command) {
    let status = command.stdout(Stdio::null()).status();
    if !status.is_ok_and(|s| s.success()) {
        fail(&format!("{command:?} failed"));
    }
}

/// The least time that a work takes in some rounds.
fn least(mut work: impl FnMut()) -> Duration {
    let round = || {
        let start = Instant::now();
        work();
        start.elapsed()
    };
    std::iter::repeat_with(round).take(setting("ROUNDS", 5).max(1) as usize).min().unwrap_or_default()
}
