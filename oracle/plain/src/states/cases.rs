//! Cases as oracle/states.py writes them: numbers of 64 bits, little-endian. Each is a state, and steps on it.

use super::machine::State;
use super::record::{Block, LIMIT, Pool, Record};
use crate::{Asked, Bytes, Refusal};
use std::fmt::Write;

/// A label is a line of so many bytes.
const LABEL: usize = 64;

/// What is left of the cases' bytes.
struct Input<'a> {
    bytes: &'a [u8],
}

impl<'a> Input<'a> {
    fn take(&mut self, count: usize) -> &'a [u8] {
        let (head, rest) = self.bytes.split_at(count);
        self.bytes = rest;
        head
    }

    fn number(&mut self) -> u64 {
        self.take(8).iter().rev().fold(0, |value, byte| value * 256 + u64::from(*byte))
    }

    fn half(&mut self) -> u32 {
        u32::try_from(self.number()).expect("a field of 32 bits holds no more")
    }

    fn index(&mut self) -> usize {
        self.number() as usize
    }

    fn pool(&mut self) -> Pool {
        Pool {
            granularity: self.number(),
            blocks: self.half(),
            empty: self.half(),
            area: self.half(),
            used: self.half(),
        }
    }

    fn block(&mut self) -> Block {
        Block {
            base: self.number(),
            size: self.number(),
            pool: self.number(),
            slot: self.number(),
            flags: self.half(),
            area: self.half(),
            used: self.half(),
            start: self.half(),
            end: self.half(),
            largest: self.half(),
        }
    }

    /// So many words, as runs of equal ones: up to where, and the word.
    fn words(&mut self, length: usize) -> Vec<u32> {
        let mut words = Vec::with_capacity(length);
        while words.len() < length {
            let (end, word) = (self.index(), self.half());
            words.resize(end, word);
        }
        words
    }

    /// The lengths of the slices, their words, and the record with no entry yet.
    fn state(&mut self) -> State {
        let (used_words, stop_words) = (self.index(), self.index());
        let (used, stop) = (self.words(used_words), self.words(stop_words));
        let record = Record {
            base_size: self.number(),
            granularity: self.number(),
            pools: self.number(),
            immediate_release: self.number() != 0,
            slot_words: self.number(),
            slots: self.number(),
            arena_base: self.number(),
            arena_length: self.number(),
            live: self.number(),
            count: self.number(),
            pool: [self.pool(), self.pool(), self.pool()],
            ..Record::zeros()
        };
        State { record, used, stop }
    }

    fn asked(&mut self) -> Asked {
        Asked {
            block_size: self.half(),
            granularity: self.half(),
            flags: self.half(),
            slot_words: self.half(),
            arena_base: self.number(),
            arena_length: self.number(),
        }
    }

    /// An entry of both lists: its place, the age that stands there by address, and the block of that age.
    fn entry(&mut self, record: &mut Record) {
        let place = self.index();
        record.order[place] = self.number();
        record.blocks[place] = self.block();
    }
}

fn answer(word: &str, result: Result<Bytes, Refusal>) -> String {
    match result {
        Ok((address, size)) => format!("{word} {address} {size}\n"),
        Err(refusal) => format!("refused {refusal}\n"),
    }
}

/// One step: a call by its kind in a trace, what shows a state, or what changes it. Answers what it writes.
fn step(kind: u64, state: &mut State, input: &mut Input) -> String {
    match kind {
        1 => match state.create(&input.asked()) {
            Ok((base_size, granularity, pools)) => format!("created {base_size} {granularity} {pools}\n"),
            Err(refusal) => format!("refused {refusal}\n"),
        },
        2 => answer("span", state.alloc(input.number())),
        3 => answer("released", state.release(input.number())),
        4 => match (input.number(), input.number()) {
            (address, 0) => answer("released", state.release(address)),
            (address, size) => answer("shrunk", state.shrink(address, size)),
        },
        5 => answer("span", state.query(input.number())),
        6 | 7 => match state.reset(kind == 7) {
            Ok(()) => "reset\n".to_string(),
            Err(refusal) => format!("refused {refusal}\n"),
        },
        8 => {
            input.entry(&mut state.record);
            String::new()
        }
        9 => shown(state),
        _ => panic!("a case has no step {kind}"),
    }
}

/// All of the state that isn't zero.
fn shown(state: &State) -> String {
    let record = &state.record;
    let numbers = [
        record.base_size,
        record.granularity,
        record.pools,
        u64::from(record.immediate_release),
        record.slot_words,
        record.slots,
        record.arena_base,
        record.arena_length,
        record.live,
        record.count,
    ];
    let mut lines = format!("record {}\n", numbers.map(|number| number.to_string()).join(" "));
    for Pool { granularity, blocks, empty, area, used } in &record.pool {
        let _ = writeln!(lines, "pool {granularity} {blocks} {empty} {area} {used}");
    }
    for place in 0..LIMIT {
        let (age, block) = (record.order[place], record.blocks[place]);
        if age != 0 || block != Block::default() {
            let Block { base, size, pool, slot, flags, area, used, start, end, largest } = block;
            let _ = writeln!(
                lines,
                "entry {place} {age} {base} {size} {pool} {slot} {flags} {area} {used} {start} {end} {largest}"
            );
        }
    }
    lines + &shown_words("used", &state.used) + &shown_words("stop", &state.stop)
}

/// Each word that is unlike the one before it; the words start from 0.
fn shown_words(name: &str, map: &[u32]) -> String {
    let mut lines = String::new();
    let mut before = 0;
    for (place, word) in map.iter().enumerate() {
        if *word != before {
            let _ = writeln!(lines, "{name} {place} {word:08x}");
        }
        before = *word;
    }
    lines
}

/// Plays every case.
pub fn run(bytes: &[u8]) -> String {
    let mut input = Input { bytes };
    let mut lines = String::new();
    while input.number() != 0 {
        lines += &String::from_utf8_lossy(input.take(LABEL));
        let mut state = input.state();
        loop {
            match input.number() {
                0 => break,
                kind => lines += &step(kind, &mut state, &mut input),
            }
        }
    }
    lines
}
