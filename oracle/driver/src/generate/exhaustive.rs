//! All short runs over an alphabet of twelve calls, in small arenas.

use super::numbers::{PLACE, ample};
use crate::writer::record;
use original::trace::{Call, Create};

/// The letters of an exhaustive run, over an arena at PLACE with blocks of 131,072 bytes and g = 256.
fn letters(three_pools: bool) -> Vec<Call> {
    let half = 65_536;
    let last = if three_pools { Call::Alloc(512) } else { Call::Alloc(half + 256) };
    vec![
        Call::Alloc(131_072),
        Call::Alloc(half),
        Call::Alloc(1),
        last,
        Call::Release(PLACE),
        Call::Release(PLACE + half),
        Call::Release(PLACE + 131_072),
        Call::Shrink(PLACE, half),
        Call::Shrink(PLACE + half, 256),
        Call::Query(PLACE + half),
        Call::SoftReset,
        Call::HardReset,
    ]
}

/// All runs of `length` letters whose number is in the range, each after its own create.
fn runs(create: &Create, length: u32, numbers: std::ops::Range<u64>) -> Vec<u8> {
    let letters = letters(create.flags & 1 != 0);
    let mut bytes = Vec::new();
    for number in numbers {
        bytes.extend(record(&Call::Create(*create)));
        let mut rest = number;
        for _ in 0..length {
            bytes.extend(record(&letters[(rest % letters.len() as u64) as usize]));
            rest /= letters.len() as u64;
        }
    }
    bytes
}

const LETTERS: u64 = 12;
const RUNS_4: u64 = 144;
pub const EXHAUSTIVE_4: u64 = 4 * (LETTERS.pow(4) / RUNS_4);
const SETTINGS_3: u64 = 24;
const RUNS_3: u64 = 216;
pub const EXHAUSTIVE_3: u64 = SETTINGS_3 * (LETTERS.pow(3) / RUNS_3);

/// All runs of four letters, 144 in a trace, in an arena for two blocks: every flag.
pub fn exhaustive_4(number: u64) -> Vec<u8> {
    let traces = LETTERS.pow(4) / RUNS_4;
    let first = number % traces * RUNS_4;
    let flags = (number / traces) as u32;
    let create = Create { flags, arena_base: PLACE, arena_length: 6 * PLACE, slot_words: 32, ..ample(256, 0) };
    runs(&create, 4, first..first + RUNS_4)
}

/// All runs of three letters, 216 in a trace: every flag, arenas of two to seven places, one slot and many.
pub fn exhaustive_3(number: u64) -> Vec<u8> {
    let traces = LETTERS.pow(3) / RUNS_3;
    let first = number % traces * RUNS_3;
    let setting = number / traces;
    let create = Create {
        flags: (setting % 4) as u32,
        arena_base: PLACE,
        arena_length: PLACE * [2, 4, 7][(setting / 4 % 3) as usize],
        slot_words: [16, 8192][(setting / 12) as usize],
        ..ample(256, 0)
    };
    runs(&create, 3, first..first + RUNS_3)
}
