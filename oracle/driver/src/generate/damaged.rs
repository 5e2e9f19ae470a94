//! Traces with bad records: cut, of an unknown kind, of a wrong length, changed, random.

use super::numbers::{ample, small_setting};
use super::random::random as random_trace;
use crate::random::Random;
use crate::writer::{Writer, raw_record, record};
use original::trace::{Call, Create};

pub fn damage_base() -> Vec<u8> {
    every_kind(&ample(64, 1))
}

/// A short good trace with a record of every kind.
fn every_kind(create: &Create) -> Vec<u8> {
    let calls = [
        Call::Create(*create),
        Call::Alloc(100),
        Call::Alloc(64),
        Call::Query(4_194_304),
        Call::Shrink(4_194_304, 1),
        Call::Release(4_194_304),
        Call::SoftReset,
        Call::HardReset,
    ];
    calls.iter().flat_map(record).collect()
}

/// The short good trace, cut at every offset.
pub fn cut(offset: u64) -> Vec<u8> {
    damage_base()[..offset as usize].to_vec()
}

/// The same in an arena that has an image.
pub fn cut_small(offset: u64) -> Vec<u8> {
    every_kind(&small_setting(0, 2))[..offset as usize].to_vec()
}

pub const KINDS: [u16; 12] = [0, 8, 9, 10, 255, 256, 257, 258, 513, 32_768, 65_534, 65_535];

/// A record of an unknown kind, with the payload lengths of known ones in turn, and a good record behind it.
pub fn unknown_kind(number: u64) -> Vec<u8> {
    let mut writer = Writer::default();
    writer.call(Call::Create(ample(64, 0)));
    writer.call(Call::Alloc(64));
    writer.raw(&raw_record(KINDS[number as usize], &vec![0; [0, 8, 16, 32][number as usize % 4]]));
    writer.raw(&record(&Call::Alloc(64)));
    writer.bytes()
}

pub const LENGTHS: [usize; 16] = [0, 1, 4, 7, 8, 9, 15, 16, 17, 24, 31, 32, 33, 256, 264, 65_535];

/// A known kind with each length, its own among them, after a create (or alone), good records behind.
pub fn wrong_length(number: u64) -> Vec<u8> {
    let kind = (number / LENGTHS.len() as u64 + 1) as u16;
    let length = LENGTHS[number as usize % LENGTHS.len()];
    let mut writer = Writer::default();
    if number % 3 != 0 {
        writer.call(Call::Create(ample(128, 0)));
    }
    writer.raw(&raw_record(kind, &vec![0; length]));
    writer.raw(&record(&Call::Alloc(64)));
    writer.bytes()
}

/// A random trace with one to four bytes changed.
pub fn flipped(number: u64) -> Vec<u8> {
    let mut random = Random::new(0x666c_6970 + number);
    let mut bytes = if number % 2 == 0 { damage_base() } else { random_trace(2 * number + 1) };
    for _ in 0..random.range(1, 4) {
        let index = random.below(bytes.len() as u64) as usize;
        bytes[index] = random.pick(&[0, 1, 0xFF, bytes[index] ^ 0x80, bytes[index].wrapping_add(1)]);
    }
    bytes
}

/// Random bytes: as they come, small ones, and records of small kinds with random payloads.
pub fn noise(number: u64) -> Vec<u8> {
    let mut random = Random::new(0x6e6f_6973 + number);
    let length = random.range(1, 400);
    match number % 3 {
        0 => (0..length).map(|_| random.next() as u8).collect(),
        1 => (0..length).map(|_| random.below(9) as u8).collect(),
        _ => (0..random.range(1, 30)).flat_map(|_| random_record(&mut random)).collect(),
    }
}

fn random_record(random: &mut Random) -> Vec<u8> {
    let kind = random.range(1, 7) as usize;
    let payload: Vec<u8> = (0..[32, 8, 8, 16, 8, 0, 0][kind - 1]).map(|_| random.next() as u8).collect();
    raw_record(kind as u16, &payload)
}
