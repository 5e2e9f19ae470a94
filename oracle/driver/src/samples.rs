//! The samples below traces/samples: some of the compared traces, kept with their lines, so that later tests
//! replay the oracle's answers without Rust.

use crate::compare::compare;
use crate::generate::{Recipe, recipes};
use original::push_back::probe::Probe;
use original::trace::{Answer, Call, read_record, run};
use std::collections::BTreeSet;
use std::fmt::Write;
use std::path::Path;

/// Traces taken by name, with what they show.
const NAMED: [(&str, &str); 35] = [
    ("empty", "no record at all"),
    ("before-create", "every call before the first good create, a refused create among them"),
    ("creation-limits", "W, arena base and arena length at their limits, alone and over a state"),
    ("creation-options", "every granularity with every base size, listed and odd; flags with idle bits"),
    ("refused-4-place", "refusal 4: no place"),
    ("refused-4-slot", "refusal 4: no free slot"),
    ("refused-4-words", "refusal 4: the block's words exceed W"),
    ("block-sizes", "the edge figures on block sizes, doubling up to 33,554,432"),
    ("block-sizes-mask", "align_up by 786,432, a mask and no true multiple"),
    ("arena-holes", "places of removed blocks taken again, three pools"),
    ("sizes-0000", "sizes at every limit, g 64, one pool"),
    ("sizes-0016", "sizes at every limit, g 128, three pools, arena at 65,536"),
    ("sizes-0032", "sizes at every limit, g 256, immediate release, arena at the top of 2^48"),
    ("addresses-0000", "every call at addresses around a block's first span, g 64"),
    ("addresses-0149", "the same around an inner span, g 256, three pools"),
    (
        "addresses-0223",
        "the same around a span of the second block, g 128, immediate release, arena at the top of 2^48",
    ),
    ("shrinks-0000", "shrinks of one unit, g 64, to every telling size"),
    ("shrinks-0160", "shrinks of 32 units, g 128, three pools"),
    ("shrinks-0200", "shrinks of 33 units, g 256, immediate release"),
    ("full-0000", "a block exactly full, and holes in it, g 64"),
    ("full-0005", "the same, g 256, three pools"),
    ("words-0000", "runs across the words of the map, g 64"),
    ("resets-0000", "resets and a second create, one pool"),
    ("resets-0003", "the same, three pools"),
    ("resets-0006", "the same, immediate release"),
    ("resets-0011", "the same, three pools and immediate release, g 256"),
    ("exhaustive-4-0100", "144 of the runs of four letters in an arena for two blocks"),
    ("fragments-0000", "many spans, holes in a pattern, growing requests, g 64"),
    ("fragments-0004", "the same, g 128, three pools"),
    ("fragments-0008", "the same, g 256, immediate release"),
    ("length-0015", "a create of 65,535 bytes"),
    ("length-0025", "an alloc whose payload has 24 bytes"),
    ("length-0083", "a soft reset with a payload of 7 bytes"),
    ("noise-0001", "random small bytes"),
    ("random-0008", "800 random calls"),
];

/// Families of tiny traces, with the numbers taken and what they show.
fn tiny() -> Vec<(&'static str, Vec<u64>, &'static str)> {
    vec![
        ("cut", vec![1, 2, 3, 4, 20, 35], "a create cut at this offset"),
        ("cut", (37..48).collect(), "an alloc cut at this offset: every offset of the record"),
        ("cut", vec![76, 84, 91], "a shrink cut at this offset"),
        ("cut", vec![105, 106, 107], "a soft reset cut at this offset"),
        ("kind", vec![0, 1, 5, 11], "a record of an unknown kind"),
    ]
}

/// How many spans a random sample must be granted: one where nothing is granted shows little.
const MIN_SPANS: usize = 15;

struct Sample {
    name: String,
    bytes: Vec<u8>,
    shows: String,
}

/// What a random trace has: the numbers of its creation as in force, and the refusals it meets.
fn features(bytes: &[u8]) -> BTreeSet<String> {
    let Some((Call::Create(create), _)) = read_record(bytes, 0) else {
        return BTreeSet::new();
    };
    let lines = compare(bytes).lines;
    let mut in_force = lines.lines().next().unwrap_or("").split(' ').skip(1);
    let (base_size, granularity) = (in_force.next().unwrap_or(""), in_force.next().unwrap_or(""));
    let mut features =
        BTreeSet::from([format!("base size {base_size}"), format!("g {granularity} with flags {}", create.flags & 3)]);
    features.extend(lines.lines().filter(|line| line.starts_with("refused")).map(str::to_string));
    features
}

/// Random traces, taken in order wherever one brings something new.
fn random_samples(recipes: &[Recipe]) -> Vec<Sample> {
    let mut seen = BTreeSet::new();
    let mut samples = Vec::new();
    for recipe in recipes.iter().filter(|recipe| recipe.name.starts_with("random-")).take(400) {
        let bytes = recipe.bytes();
        let spans = compare(&bytes).lines.lines().filter(|line| line.starts_with("span")).count();
        let short = bytes.len() < 1000;
        let new: Vec<String> = features(&bytes).difference(&seen).cloned().collect();
        if short && spans >= MIN_SPANS && !new.is_empty() {
            let shows = format!("random calls; new here: {}", new.join(", "));
            seen.extend(new);
            samples.push(Sample { name: recipe.name.clone(), bytes, shows });
        }
    }
    samples
}

fn choose() -> Vec<Sample> {
    let recipes = recipes();
    let sample = |name: &str, shows: &str| {
        let recipe = recipes.iter().find(|recipe| recipe.name == name);
        let recipe = recipe.unwrap_or_else(|| panic!("there is no trace {name}"));
        Sample { name: name.to_string(), bytes: recipe.bytes(), shows: shows.to_string() }
    };
    let mut samples: Vec<Sample> = NAMED.iter().map(|(name, shows)| sample(name, shows)).collect();
    for (family, numbers, shows) in tiny() {
        samples.extend(numbers.iter().map(|number| sample(&format!("{family}-{number:04}"), shows)));
    }
    samples.extend(random_samples(&recipes));
    samples.sort_by(|a, b| a.name.cmp(&b.name));
    samples
}

/// The lines, and how many of them are the plain program's: those where the original was not asked.
fn lines(bytes: &[u8]) -> (String, usize) {
    let original = run::<Probe>(bytes, |_, _, _| {});
    let plain = plain::trace::run(bytes, |_| {});
    let outside = Answer::Outside.to_string();
    let mut text = String::new();
    for (left, right) in original.lines().zip(plain.lines()) {
        let _ = writeln!(text, "{}", if left == outside { right } else { left });
    }
    (text, original.lines().filter(|line| *line == outside).count())
}

const HEAD: &str = "\
# Samples of the oracle's answers

Written by `oracle/make-samples`; do not edit. Each NAME.trace is one of the traces that `oracle/compare`
makes and compares (the name says the family and the number that seeds it, see oracle/driver/src/generate);
NAME.lines is what docs/01-scope.md's trace program writes for it.

The lines are the original's (docs/src over the modelled arena, with a new block at the back of its list), and
the plain program gave the same ones when they were written, or nothing would have been. The creation's limits
and refusals 4, 5 and 7 are no part of the original: there the lines are those of the two programs around it,
which agree. 'plain' counts the lines of calls that docs/DIFFERENCES.md lists, which the original was not asked:
those are the plain program's alone.

| name | bytes | calls | plain | shows |
|---|---|---|---|---|
";

fn write(path: &Path, content: &[u8]) -> bool {
    match std::fs::write(path, content) {
        Ok(()) => true,
        Err(error) => {
            eprintln!("driver: cannot write {}: {error}", path.display());
            false
        }
    }
}

/// Writes every sample and their README.md into the directory, unless the two programs differ on one.
pub fn write_all(directory: &Path) -> bool {
    let mut readme = HEAD.to_string();
    let mut total = 0;
    let samples = choose();
    for sample in &samples {
        let outcome = compare(&sample.bytes);
        if let Some(difference) = outcome.difference {
            eprintln!("driver: {} differs, nothing more is written: {difference}", sample.name);
            return false;
        }
        let (text, plain) = lines(&sample.bytes);
        let good = write(&directory.join(format!("{}.trace", sample.name)), &sample.bytes)
            && write(&directory.join(format!("{}.lines", sample.name)), text.as_bytes());
        if !good {
            return false;
        }
        total += sample.bytes.len() + text.len();
        let (name, bytes, shows) = (&sample.name, sample.bytes.len(), &sample.shows);
        let _ = writeln!(readme, "| {name} | {bytes} | {} | {plain} | {shows} |", outcome.calls);
    }
    println!("{} samples, {total} bytes", samples.len());
    write(&directory.join("README.md"), readme.as_bytes())
}
