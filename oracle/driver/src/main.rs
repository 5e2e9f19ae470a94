//! The comparing driver behind `oracle/compare` and `oracle/make-samples`.
//!
//! `driver compare DIRECTORY`: every trace on the original and on the plain program; a differing one is saved.
//! `driver filled DIRECTORY`: the same in filled mode, on traces of its own.
//! `driver published`: every trace on the oracle and on the original's text as published.
//! `driver program DIRECTORY PROGRAM EVERY [--blocks | --filled]`: every trace, or each so many-th, on the oracle, on the
//! plain program and on another program, which reads it from its standard input. It is given the last argument: with
//! `--blocks` it has to write the state after each call too, with `--filled` to play filled mode, as the oracle does.
//! `driver samples DIRECTORY`: writes the samples.
//! `driver long FILE CALLS LIVE`: writes one long trace, with about so many live spans.

mod compare;
mod edges;
mod generate;
mod random;
mod samples;
mod writer;

use compare::{Mode, asked_lines, compare_published, first_lines, reduce, side_by_side};
use generate::recipes;
use original::filled;
use original::push_back::probe::Probe;
use std::collections::BTreeMap;
use std::fs::File;
use std::path::Path;
use std::process::{Command, exit};
use std::time::{Duration, Instant};

/// A progress line now and then.
struct Progress {
    total: usize,
    last: Instant,
}

impl Progress {
    fn new(total: usize) -> Self {
        Progress { total, last: Instant::now() }
    }

    fn show(&mut self, traces: usize, calls: usize) {
        if self.last.elapsed() >= Duration::from_secs(5) {
            eprintln!("  {traces} of {} traces, {calls} calls so far", self.total);
            self.last = Instant::now();
        }
    }
}

/// Tells of the first few differing traces; the rest are counted.
fn tell(told: usize, difference: &str) {
    match told {
        0..10 => eprintln!("  {difference}"),
        10 => eprintln!("  (further ones are only counted)"),
        _ => {}
    }
}

/// How often each answer was given: `span`, `refused 4` and so on, and in filled mode `wrote` and `write refused 1`.
#[derive(Default)]
struct Tally(BTreeMap<String, usize>);

impl Tally {
    fn add(&mut self, lines: &str) {
        for line in lines.lines().filter(|line| !line.starts_with("  image ")) {
            let word = match line.strip_prefix("  ") {
                Some(refused) if refused.starts_with("refused") => format!("write {refused}"),
                None if line.starts_with("refused") => line.to_string(),
                _ => line.trim_start().split(' ').next().unwrap_or("").to_string(),
            };
            *self.0.entry(word).or_default() += 1;
        }
    }

    fn text(&self) -> String {
        self.0.iter().map(|(word, count)| format!("{word}: {count}")).collect::<Vec<_>>().join(", ")
    }
}

/// Compares all traces. The smallest differing one is reduced, saved and shown.
fn compare_all(directory: &Path, mode: Mode) -> bool {
    let recipes = mode.recipes();
    let mut progress = Progress::new(recipes.len());
    let (mut calls, mut outside, mut mended, mut ended, mut differing) = (0, 0, 0, 0, Vec::new());
    let mut tally = Tally::default();
    for (index, recipe) in recipes.iter().enumerate() {
        let bytes = recipe.bytes();
        let outcome = mode.compare(&bytes);
        calls += outcome.calls;
        outside += outcome.outside;
        mended += outcome.mended;
        ended += usize::from(outcome.ended);
        tally.add(&outcome.lines);
        if let Some(difference) = outcome.difference {
            tell(differing.len(), &format!("{} differs: {difference}", recipe.name));
            differing.push((recipe.name.clone(), bytes));
        }
        progress.show(index + 1, calls);
    }
    if let Some((name, bytes)) = differing.iter().min_by_key(|(_, bytes)| bytes.len()) {
        show_smallest(directory, mode, name, bytes);
    }
    println!("answers: {}", tally.text());
    println!(
        "{outside} of the calls are listed in docs/DIFFERENCES.md: the original was not asked, the plain program refuses them (3)"
    );
    if mode == Mode::Filled {
        println!("{ended} of the traces have an arena longer than the image: the original is compared up to there");
        println!(
            "soft resets of the original left {mended} bytes that aren't the pattern's, all in last units of spans (docs/DIFFERENCES.md, 9)"
        );
    }
    println!("{} traces, {calls} calls, {} differ", recipes.len(), differing.len());
    differing.is_empty()
}

fn show_smallest(directory: &Path, mode: Mode, name: &str, bytes: &[u8]) {
    let smallest = reduce(mode, bytes);
    let path = directory.join("differs.trace");
    match std::fs::write(&path, &smallest) {
        Ok(()) => {
            println!("The smallest, cut down from {name} and saved as oracle/target/differs.trace (original | plain):")
        }
        Err(error) => {
            println!("The smallest, cut down from {name} (it could not be saved: {error}; original | plain):")
        }
    }
    print!("{}", side_by_side(mode, &smallest));
}

/// Filled mode: the writes at the edges of spans, then all traces.
fn compare_all_filled(directory: &Path) -> bool {
    let (writes, differences) = edges::compare_edges();
    for (told, difference) in differences.iter().enumerate() {
        tell(told, difference);
    }
    println!("{writes} writes at the edges of spans, {} differ", differences.len());
    compare_all(directory, Mode::Filled) && differences.is_empty()
}

/// Where no pool ever has two blocks, the text as published must answer as the oracle does.
fn compare_all_published() -> bool {
    let recipes = recipes();
    let mut progress = Progress::new(recipes.len());
    let (mut single_traces, mut single_calls, mut beginnings, mut calls) = (0, 0, 0, 0);
    let (mut differ_later, mut wrong) = (0, 0);
    for (index, recipe) in recipes.iter().enumerate() {
        let published = compare_published(&recipe.bytes());
        calls += published.calls;
        let single = published.calls_with_single_blocks;
        if single == published.calls {
            single_traces += 1;
            single_calls += single;
        } else {
            beginnings += single;
        }
        match published.differs_at {
            Some(at) if at < single => {
                eprintln!("  {} differs at call {} with single blocks", recipe.name, at + 1);
                wrong += 1;
            }
            Some(_) => differ_later += 1,
            None => {}
        }
        progress.show(index + 1, calls);
    }
    let others = recipes.len() - single_traces;
    println!("{others} traces have two blocks in a pool at some time; {differ_later} of them then differ");
    println!("up to that time they have {beginnings} calls more with at most one block in a pool, compared too");
    println!("{single_traces} traces, {single_calls} calls with at most one block in a pool, {wrong} differ");
    wrong == 0
}

/// What another program has to write.
#[derive(Clone, Copy)]
enum Form {
    Lines,
    Blocks,
    Filled,
}

impl Form {
    fn of(arguments: &[&str]) -> Option<Self> {
        match arguments {
            [] => Some(Form::Lines),
            ["--blocks"] => Some(Form::Blocks),
            ["--filled"] => Some(Form::Filled),
            _ => None,
        }
    }

    fn mode(self) -> Mode {
        if matches!(self, Form::Filled) { Mode::Filled } else { Mode::Bare }
    }

    /// What the program is given.
    fn arguments(self) -> &'static [&'static str] {
        match self {
            Form::Lines => &[],
            Form::Blocks => &["--blocks"],
            Form::Filled => &["--filled"],
        }
    }

    fn original(self, bytes: &[u8]) -> String {
        match self {
            Form::Lines => original::trace::run::<Probe>(bytes, |_, _, _| {}),
            Form::Blocks => original::trace::run::<Probe>(bytes, |_, machine, lines| {
                original::trace::write_state(machine, lines);
            }),
            Form::Filled => filled::run::<Probe>(bytes, |_| {}).lines,
        }
    }

    /// The plain program keeps no fields of a block.
    fn plain(self, bytes: &[u8]) -> Option<String> {
        match self {
            Form::Lines => Some(plain::trace::run(bytes, |_| {})),
            Form::Blocks => None,
            Form::Filled => Some(plain::filled::run(bytes)),
        }
    }
}

/// The oracle's lines, with refusal 3 where that was not asked; and whether these are all lines, or only those up to a create that could not be asked for.
fn expected(bytes: &[u8], form: Form) -> (String, bool) {
    let lines = form.original(bytes);
    let (asked, ended) = asked_lines(&lines);
    let wanted = |line: &str| if line == "outside" { "refused 3\n".to_string() } else { format!("{line}\n") };
    (asked.lines().map(wanted).collect(), !ended)
}

/// Plays the trace in the file on the program. A failure to run counts as an answer of its own.
fn answered(program: &str, arguments: &[&str], trace: &Path) -> String {
    let output = File::open(trace).and_then(|file| Command::new(program).args(arguments).stdin(file).output());
    match output {
        Ok(output) if output.status.success() => String::from_utf8_lossy(&output.stdout).into_owned(),
        Ok(output) => format!("{}({})\n", String::from_utf8_lossy(&output.stdout), output.status),
        Err(error) => format!("(cannot be run: {error})\n"),
    }
}

/// Writes one long trace.
fn write_long(file: &Path, calls: &str, live: &str) -> bool {
    let (Ok(calls), Ok(live)) = (calls.parse(), live.parse()) else {
        eprintln!("driver: {calls} and {live} are not two numbers");
        return false;
    };
    let written = std::fs::write(file, generate::long(calls, live));
    if let Err(error) = &written {
        eprintln!("driver: cannot write {}: {error}", file.display());
    }
    written.is_ok()
}

/// The first line that differs, its line feed included.
fn first_difference(wanted: &str, got: &str) -> String {
    let (mut left, mut right) = (wanted.split_inclusive('\n'), got.split_inclusive('\n'));
    let mut number = 1;
    loop {
        match (left.next(), right.next()) {
            (None, None) => return "in nothing".to_string(),
            (a, b) if a == b => number += 1,
            (a, b) => return format!("line {number}: {:?} wanted, {:?} written", a.unwrap_or(""), b.unwrap_or("")),
        }
    }
}

/// Compares another program with the oracle, one process a trace, and with the plain program, which covers what lies outside the
/// oracle's domain. Each `every`-th trace is taken. The smallest differing trace is saved.
fn compare_all_program(directory: &Path, program: &str, every: usize, form: Form) -> bool {
    let recipes: Vec<_> = form.mode().recipes().into_iter().step_by(every).collect();
    let mut progress = Progress::new(recipes.len());
    let path = directory.join("program.trace");
    let (mut calls, mut from_original, mut from_plain, mut differing) = (0, 0, 0, Vec::new());
    for (index, recipe) in recipes.iter().enumerate() {
        let bytes = recipe.bytes();
        calls += compare::count_calls(&bytes);
        if let Err(error) = std::fs::write(&path, &bytes) {
            eprintln!("driver: cannot write {}: {error}", path.display());
            return false;
        }
        let got = answered(program, form.arguments(), &path);
        let mut differs = |name: &str, wanted: &str, got: &str, count: &mut usize| {
            if wanted != got {
                let difference = first_difference(wanted, got);
                tell(differing.len(), &format!("{} differs from {name}, {difference}", recipe.name));
                differing.push(bytes.clone());
                *count += 1;
            }
        };
        let (wanted, all) = expected(&bytes, form);
        let asked = if all { &got } else { first_lines(&got, wanted.lines().count()) };
        differs("the original", &wanted, asked, &mut from_original);
        if let Some(wanted) = form.plain(&bytes) {
            differs("the plain program", &wanted, &got, &mut from_plain);
        }
        progress.show(index + 1, calls);
    }
    if let Some(bytes) = differing.iter().min_by_key(|bytes| bytes.len())
        && std::fs::write(directory.join("differs.trace"), bytes).is_ok()
    {
        println!("The smallest that differs is saved as oracle/target/differs.trace");
    }
    if !matches!(form, Form::Blocks) {
        println!("against the plain program: {} traces, {calls} calls, {from_plain} differ", recipes.len());
    }
    println!("against the original: {} traces, {calls} calls, {from_original} differ", recipes.len());
    differing.is_empty()
}

fn usage() -> ! {
    eprintln!(
        "driver: usage: driver compare DIRECTORY | filled DIRECTORY | published | program DIRECTORY PROGRAM EVERY [--blocks | --filled] | samples DIRECTORY | long FILE CALLS LIVE"
    );
    exit(2);
}

fn main() {
    let arguments: Vec<String> = std::env::args().skip(1).collect();
    let words: Vec<&str> = arguments.iter().map(String::as_str).collect();
    let good = match words.as_slice() {
        ["compare", directory] => compare_all(Path::new(directory), Mode::Bare),
        ["filled", directory] => compare_all_filled(Path::new(directory)),
        ["published"] => compare_all_published(),
        ["program", directory, program, every, arguments @ ..] => match (every.parse(), Form::of(arguments)) {
            (Ok(every @ 1..), Some(form)) => compare_all_program(Path::new(directory), program, every, form),
            _ => usage(),
        },
        ["samples", directory] => samples::write_all(Path::new(directory)),
        ["long", file, calls, live] => write_long(Path::new(file), calls, live),
        _ => usage(),
    };
    exit(i32::from(!good));
}
