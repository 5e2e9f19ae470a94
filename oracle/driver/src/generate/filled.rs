//! Traces for filled mode: which bytes are filled and which stay. A write is tried after each call, also after a query, at
//! an offset and with a length that change from call to call; so a span is written by asking for it a few times.

use super::numbers::*;
use crate::writer::Writer;
use original::trace::{Answer, Call, Create};

/// How often a span is asked for, so that the writes after it reach its first 200 bytes or so.
const TIMES: usize = 4;

fn write(writer: &mut Writer, address: u64) {
    for _ in 0..TIMES {
        writer.call(Call::Query(address));
    }
}

/// Allocates and writes; nothing where the allocation is refused.
fn written(writer: &mut Writer, size: u64) -> Option<u64> {
    let Answer::Span(address, _) = writer.call(Call::Alloc(size)) else {
        return None;
    };
    write(writer, address);
    Some(address)
}

fn begin(create: &Create) -> (Writer, u64) {
    let mut writer = Writer::default();
    writer.call(Call::Create(*create));
    let g = writer.granularity;
    (writer, g)
}

/// Soft resets with live spans: of one unit and of more, side by side and apart, at a word's edge and at the block's end.
pub fn kept_live(create: &Create) -> Vec<u8> {
    let (mut writer, g) = begin(create);
    for units in [[1, 1, 1], [2, 1, 3], [4, 2, 1], [31, 1, 2]] {
        for count in units {
            written(&mut writer, count * g);
        }
        if let Some((hole, _)) = writer.live.get(1).copied() {
            writer.call(Call::Release(hole));
        }
        // What is left of a first block, but for one unit: the next span ends with the block.
        written(&mut writer, 131_072 - (units[0] + units[1] + units[2] + 1) * g);
        written(&mut writer, g);
        writer.call(Call::SoftReset);
    }
    writer.bytes()
}

/// Soft resets where the oldest block is empty, alone and before others, and where a newer one is.
pub fn kept_empty(create: &Create) -> Vec<u8> {
    let (mut writer, g) = begin(create);
    // Blocks that are full, of one pool each, and which of them are released.
    for released in [&[0][..], &[1], &[0, 1], &[]] {
        let blocks = [131_072 - g, 262_144 - g].map(|size| written(&mut writer, size));
        written(&mut writer, g);
        for index in released {
            if let Some(address) = blocks[*index] {
                writer.call(Call::Release(address));
            }
        }
        writer.call(Call::SoftReset);
        writer.call(Call::SoftReset);
    }
    writer.bytes()
}

/// Shrinks, unit by unit and at once, to fewer units, to as many and to none.
pub fn shrunk(create: &Create) -> Vec<u8> {
    let (mut writer, g) = begin(create);
    for sizes in [&[3 * g, 2 * g, g + 1, g, 1, 0][..], &[4 * g - 1, g], &[1, g], &[5 * g, 0], &[2 * g, 3 * g, 0]] {
        let Some(address) = written(&mut writer, 4 * g) else { continue };
        written(&mut writer, g);
        for size in sizes {
            writer.call(Call::Shrink(address, *size));
            write(&mut writer, address);
        }
    }
    writer.bytes()
}

/// Releases that leave a block without spans: kept at first; gone where another is kept, or released at once.
pub fn block_goes(create: &Create) -> Vec<u8> {
    let (mut writer, g) = begin(create);
    for order in [[0, 1, 2], [2, 1, 0], [1, 2, 0]] {
        let spans = [131_072 - g, g, 262_144 - g].map(|size| written(&mut writer, size));
        for address in order.into_iter().filter_map(|index| spans[index]) {
            writer.call(Call::Release(address));
            writer.call(Call::Release(address));
            write(&mut writer, address);
        }
    }
    writer.bytes()
}

/// Blocks at places that had one: after a release, a hard reset, a soft one, and in the arena of a second create.
pub fn made_again(create: &Create) -> Vec<u8> {
    let (mut writer, g) = begin(create);
    for call in [Call::HardReset, Call::SoftReset, Call::Create(*create)] {
        for size in [g, 131_072 - g, 131_072, 2 * g] {
            written(&mut writer, size);
        }
        writer.call(call);
        written(&mut writer, g);
        while let Some((address, _)) = writer.live.last().copied() {
            writer.call(Call::Release(address));
        }
        written(&mut writer, 131_072);
    }
    writer.bytes()
}

const BASE_SIZES: [u32; 5] = [65_536, 131_072, 262_144, 524_288, 98_304];
pub const OPTIONS: u64 = 4 * BASE_SIZES.len() as u64;

/// Every granularity and an odd one with the base sizes whose first block fits, three pools and flags with idle bits.
pub fn options(number: u64) -> Vec<u8> {
    let granularity = [64, 128, 256, 96][number as usize % 4];
    let block_size = BASE_SIZES[number as usize / 4];
    let mut writer = Writer::default();
    for flags in [0, 3, u32::MAX - 2] {
        let create = Create { block_size, granularity, slot_words: 8192 / 4, flags, ..small_setting(0, 16) };
        writer.call(Call::Create(create));
        for size in [1, 2, 4].map(|units| units * writer.granularity) {
            written(&mut writer, size);
        }
        written(&mut writer, u64::from(block_size));
        writer.call(Call::SoftReset);
    }
    writer.bytes()
}

/// Refusals 4 of the other two causes, beside spans that are written: no byte changes.
pub fn refused_4_slot_or_words() -> Vec<u8> {
    let mut writer = Writer::default();
    // Two slots for three pools, and slots that hold the first block but not the second.
    for (slot_words, flags) in [(4096, 1), (16, 0), (16, 2)] {
        writer.call(Call::Create(Create { slot_words, flags, ..small_setting(2, 10) }));
        for size in [256, 512, 131_072 - 256, 1024, 131_072, 512] {
            written(&mut writer, size);
        }
        writer.call(Call::SoftReset);
        written(&mut writer, 131_072);
        written(&mut writer, 256);
    }
    writer.bytes()
}

/// Every call with an image that is shorter than the arena; before it and behind it arenas that have theirs.
pub fn too_long(create: &Create) -> Vec<u8> {
    let mut writer = Writer::default();
    let small = Create { arena_length: 2 * PLACE, ..*create };
    for length in [(1 << 20) + PLACE, create.arena_length] {
        writer.call(Call::Create(small));
        written(&mut writer, 64);
        writer.call(Call::Create(Create { arena_length: length, ..*create }));
        let address = create.arena_base;
        for call in [Call::Alloc(64), Call::Alloc(0), Call::Release(0), Call::Release(address), Call::Query(address)] {
            writer.call(call);
        }
        for call in [Call::Shrink(address, 0), Call::Shrink(0, 1), Call::SoftReset, Call::HardReset] {
            writer.call(call);
        }
    }
    writer.call(Call::Create(small));
    written(&mut writer, 64);
    writer.bytes()
}
