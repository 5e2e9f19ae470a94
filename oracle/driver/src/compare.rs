//! Plays one trace on both programs and holds the answers side by side.

use crate::generate::{Recipe, filled_recipes, recipes};
use crate::writer::text;
use original::allocator::{Allocator, BlockView};
use original::filled;
use original::push_back::probe::Probe;
use original::push_front::probe::Probe as Unpatched;
use original::trace::{Answer, read_record, run};
use std::panic::{AssertUnwindSafe, catch_unwind};

/// Maps and places are compared after every call of a short trace, and after every so many of a long one.
const SHORT: usize = 100;
const STRIDE: usize = 8;

/// How traces are played: as docs/01-scope.md has it, or in filled mode (oracle/README.md).
#[derive(Clone, Copy, PartialEq)]
pub enum Mode {
    Bare,
    Filled,
}

impl Mode {
    pub fn recipes(self) -> Vec<Recipe> {
        match self {
            Mode::Bare => recipes(),
            Mode::Filled => filled_recipes(),
        }
    }

    /// The oracle against the plain program.
    pub fn compare(self, bytes: &[u8]) -> Outcome {
        match self {
            Mode::Bare => compare(bytes),
            Mode::Filled => compare_filled(bytes),
        }
    }

    /// The lines of both, or what was said of a panic.
    fn lines(self, bytes: &[u8]) -> (String, String) {
        let length = count_calls(bytes);
        let bare = |played: Result<Played, String>| played.map_or_else(|panic| panic, |played| played.lines);
        match self {
            Mode::Bare => (bare(play_original::<Probe>(bytes, length)), bare(play_plain(bytes, length))),
            Mode::Filled => (
                fill_original(bytes).map_or_else(|panic| panic, |filled| filled.lines),
                fill_plain(bytes).unwrap_or_else(|panic| panic),
            ),
        }
    }
}

/// What became of a trace.
#[derive(Default)]
pub struct Outcome {
    pub calls: usize,
    /// Calls that docs/DIFFERENCES.md lists: the original was not asked, the plain program refuses 3.
    pub outside: usize,
    /// Filled mode: bytes that the original's soft resets left with something else than the pattern.
    pub mended: u64,
    /// Filled mode: whether an arena is longer than the image, so that the original's lines end there.
    pub ended: bool,
    /// What differs first, if something does.
    pub difference: Option<String>,
    /// The plain program's lines.
    pub lines: String,
}

/// A number that stands for all blocks, in order of age: base, size, pool, slot and both maps.
struct Digest(u64);

impl Digest {
    fn add(&mut self, number: u64) {
        self.0 = (self.0 ^ number).wrapping_mul(0x0000_0100_0000_01B3).rotate_left(23);
    }
}

fn original_digest(blocks: &[BlockView]) -> u64 {
    let mut digest = Digest(0);
    for block in blocks {
        [block.base, block.size, block.pool as u64, u64::from(block.slot)].into_iter().for_each(|n| digest.add(n));
        block.used.iter().chain(&block.stop).for_each(|word| digest.add(u64::from(*word)));
    }
    digest.0
}

fn plain_digest(machine: &plain::trace::Machine) -> u64 {
    let mut digest = Digest(0);
    for block in machine.allocator.iter().flat_map(|allocator| &allocator.blocks) {
        [block.base, block.size, block.pool as u64, block.slot as u64].into_iter().for_each(|n| digest.add(n));
        words(&block.used).chain(words(&block.stop)).for_each(|word| digest.add(u64::from(word)));
    }
    digest.0
}

/// What 01 and docs/02-change-requests.md (request 7) say of states reached by calls, and the block breaks: its
/// used count, its window, its largest run and its empty flag are tested against its map.
fn unsound(block: &BlockView) -> Option<&'static str> {
    let window = block.search_start..block.search_end;
    let (mut used, mut run, mut longest, mut outside) = (0, 0, 0, false);
    for (index, word) in block.used.iter().enumerate() {
        let first = 32 * index as u32;
        // Most words are free and within the window, and need no look at each unit.
        if *word == 0 && window.start <= first && first + 32 <= window.end {
            run += 32;
            longest = longest.max(run);
            continue;
        }
        for unit in first..first + 32 {
            let is_used = word >> (unit - first) & 1 == 1;
            used += u32::from(is_used);
            run = if is_used { 0 } else { run + 1 };
            longest = longest.max(run);
            outside |= !is_used && !window.contains(&unit);
        }
    }
    let (is_empty, is_dirty) = (block.flags & 1 != 0, block.flags & 2 != 0);
    let faults = [
        (used != block.area_used, "the used count is not the map's"),
        (outside, "a free unit lies outside the window"),
        (!is_dirty && longest != block.largest_unused_area, "not dirty, but the largest run is wrong"),
        (is_empty != (used == 0), "the empty flag does not match"),
        (block.flags > 3, "another flag"),
    ];
    faults.into_iter().find(|(broken, _)| *broken).map(|(_, fault)| fault)
}

/// A map's words, unit 0 in the lowest bit of word 0.
fn words(map: &[bool]) -> impl Iterator<Item = u32> {
    map.chunks(32).map(|units| units.iter().rev().fold(0, |word, unit| word << 1 | u32::from(*unit)))
}

/// Calls after which the blocks are compared.
fn is_seen(index: usize, length: usize) -> bool {
    length < SHORT || index % STRIDE == 0
}

struct Played {
    lines: String,
    digests: Vec<u64>,
    /// What is wrong with a block of the original, if something is.
    unsound: Option<&'static str>,
}

fn play_original<A: Allocator>(bytes: &[u8], length: usize) -> Result<Played, String> {
    let (mut digests, mut fault) = (Vec::new(), None);
    let mut index = 0;
    let play = || {
        run::<A>(bytes, |_, machine, _| {
            if is_seen(index, length) {
                let blocks = machine.blocks();
                digests.push(original_digest(&blocks));
                fault = fault.or_else(|| blocks.iter().find_map(unsound));
            }
            index += 1;
        })
    };
    let lines = catch_unwind(AssertUnwindSafe(play)).map_err(|_| "the original panics".to_string())?;
    Ok(Played { lines, digests, unsound: fault })
}

fn play_plain(bytes: &[u8], length: usize) -> Result<Played, String> {
    let mut digests = Vec::new();
    let mut index = 0;
    let play = || {
        plain::trace::run(bytes, |machine| {
            if is_seen(index, length) {
                digests.push(plain_digest(machine));
            }
            index += 1;
        })
    };
    let lines = catch_unwind(AssertUnwindSafe(play)).map_err(|_| "the plain program panics".to_string())?;
    Ok(Played { lines, digests, unsound: None })
}

/// How many records of the trace are calls.
pub fn count_calls(bytes: &[u8]) -> usize {
    let (mut calls, mut offset) = (0, 0);
    while let Some((_, next)) = (offset < bytes.len()).then(|| read_record(bytes, offset)).flatten() {
        calls += 1;
        offset = next;
    }
    calls
}

/// The oracle against the plain program.
pub fn compare(bytes: &[u8]) -> Outcome {
    let calls = count_calls(bytes);
    let played = play_original::<Probe>(bytes, calls).and_then(|original| Ok((original, play_plain(bytes, calls)?)));
    match played {
        Err(panic) => Outcome { calls, difference: Some(panic), ..Outcome::default() },
        Ok((original, plain)) => Outcome {
            calls,
            outside: original.lines.lines().filter(|line| *line == Answer::Outside.to_string()).count(),
            difference: differing_line(&original.lines, &plain.lines)
                .or_else(|| differing_blocks(&original.digests, &plain.digests))
                .or_else(|| original.unsound.map(|fault| format!("a block of the original: {fault}"))),
            lines: plain.lines,
            ..Outcome::default()
        },
    }
}

fn fill_original(bytes: &[u8]) -> Result<filled::Filled, String> {
    catch_unwind(|| filled::run::<Probe>(bytes, |_| {})).map_err(|_| "the original panics".to_string())
}

fn fill_plain(bytes: &[u8]) -> Result<String, String> {
    catch_unwind(|| plain::filled::run(bytes)).map_err(|_| "the plain program panics".to_string())
}

/// The oracle against the plain program in filled mode: the answers, the writes and the images. The original's answers
/// must also be those that it gives without filling.
fn compare_filled(bytes: &[u8]) -> Outcome {
    let calls = count_calls(bytes);
    let (original, plain) = match fill_original(bytes).and_then(|original| Ok((original, fill_plain(bytes)?))) {
        Ok(played) => played,
        Err(panic) => return Outcome { calls, difference: Some(panic), ..Outcome::default() },
    };
    let (asked, ended) = asked_lines(&original.lines);
    let count = asked.lines().count();
    let answers: String = asked.split_inclusive('\n').filter(|line| !line.starts_with(' ')).collect();
    let bare = run::<Probe>(bytes, |_, _, _| {});
    Outcome {
        calls,
        outside: asked.lines().filter(|line| *line == Answer::Outside.to_string()).count(),
        mended: original.mended,
        ended,
        difference: differing_line(asked, if ended { first_lines(&plain, count) } else { &plain }).or_else(|| {
            let wanted = if ended { first_lines(&bare, answers.lines().count()) } else { &bare };
            (answers != wanted).then(|| "equal lines, but filling changes an answer of the original".to_string())
        }),
        lines: plain,
    }
}

/// The original's lines up to a create that filled mode could not ask for, and whether there was one.
pub fn asked_lines(original: &str) -> (&str, bool) {
    match original.strip_suffix("outside\n") {
        Some(asked) => (asked, true),
        None => (original, false),
    }
}

/// The first so many lines, their line feeds included.
pub fn first_lines(text: &str, count: usize) -> &str {
    let length = text.split_inclusive('\n').take(count).map(str::len).sum();
    &text[..length]
}

/// The first line that differs. Where the original was not asked, 01 has refusal 3.
fn differing_line(original: &str, plain: &str) -> Option<String> {
    let equal = |(left, right): (&str, &str)| left == right || (left == "outside" && right == "refused 3");
    let (mut left, mut right) = (original.lines(), plain.lines());
    for number in 1.. {
        match (left.next(), right.next()) {
            (None, None) => return None,
            (Some(a), Some(b)) if equal((a, b)) => {}
            (a, b) => {
                let (a, b) = (a.unwrap_or("nothing"), b.unwrap_or("nothing"));
                return Some(format!("line {number}: the original '{a}', the plain program '{b}'"));
            }
        }
    }
    None
}

/// The first time that the blocks differ, among those when they are compared.
fn differing_blocks(original: &[u64], plain: &[u64]) -> Option<String> {
    let index = original.iter().zip(plain).position(|(a, b)| a != b)?;
    Some(format!("equal lines, but at comparison {} of the blocks they differ", index + 1))
}

/// How the text as published fares beside the oracle.
pub struct Published {
    pub calls: usize,
    /// Calls up to the first one after which a pool has two blocks; all, if none ever has.
    pub calls_with_single_blocks: usize,
    /// The first call whose answer differs, if one does.
    pub differs_at: Option<usize>,
}

pub fn compare_published(bytes: &[u8]) -> Published {
    let calls = count_calls(bytes);
    let mut single = 0;
    let mut doubled = false;
    let oracle = run::<Probe>(bytes, |_, machine, _| {
        let pools = machine.allocator().map_or_else(Vec::new, Allocator::pools);
        doubled |= pools.iter().any(|pool| pool.block_count > 1);
        single += usize::from(!doubled);
    });
    let published = run::<Unpatched>(bytes, |_, _, _| {});
    let differs_at = oracle.lines().zip(published.lines()).position(|(a, b)| a != b);
    Published { calls, calls_with_single_blocks: single, differs_at }
}

/// The records of a trace, and what is left behind them.
fn split(bytes: &[u8]) -> Vec<Vec<u8>> {
    let (mut parts, mut offset) = (Vec::new(), 0);
    while let Some((_, next)) = (offset < bytes.len()).then(|| read_record(bytes, offset)).flatten() {
        parts.push(bytes[offset..next].to_vec());
        offset = next;
    }
    if offset < bytes.len() {
        parts.push(bytes[offset..].to_vec());
    }
    parts
}

/// Drops records from a differing trace for as long as it still differs: halves first, then one by one.
pub fn reduce(mode: Mode, bytes: &[u8]) -> Vec<u8> {
    let mut parts = split(bytes);
    let mut piece = parts.len() / 2;
    while piece > 0 {
        let mut start = 0;
        while start < parts.len() {
            let mut fewer = parts.clone();
            fewer.drain(start..(start + piece).min(parts.len()));
            if mode.compare(&fewer.concat()).difference.is_some() {
                parts = fewer;
            } else {
                start += piece;
            }
        }
        piece /= 2;
    }
    parts.concat()
}

/// Each call's text beside both answers, for people; below it what is written beside them.
pub fn side_by_side(mode: Mode, bytes: &[u8]) -> String {
    let (original, plain) = mode.lines(bytes);
    let (mut left, mut right) = (original.lines().peekable(), plain.lines().peekable());
    let mut page = String::new();
    for part in split(bytes) {
        let call = read_record(&part, 0).map_or_else(|| format!("# damaged bytes {part:?}"), |(call, _)| text(&call));
        page += &row(&call, left.next(), right.next());
        let beside = |line: &&str| line.starts_with(' ');
        while left.peek().is_some_and(beside) || right.peek().is_some_and(beside) {
            page += &row("", left.next_if(beside), right.next_if(beside));
        }
    }
    page + &row("", left.next(), right.next())
}

fn row(call: &str, left: Option<&str>, right: Option<&str>) -> String {
    let (left, right) = (left.unwrap_or(""), right.unwrap_or(""));
    let mark = if left == right { "" } else { "   <-- differ" };
    format!("{}\n", format!("{call:<46} | {left:<32} | {right:<32}{mark}").trim_end())
}
