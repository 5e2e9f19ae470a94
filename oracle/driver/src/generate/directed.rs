//! Traces written for a purpose: the limits, the addresses, each cause of refusal 4.

use super::numbers::*;
use crate::writer::Writer;
use original::trace::{Answer, Call, Create};

pub fn before_create() -> Vec<u8> {
    let mut writer = Writer::default();
    let calls = [Call::Alloc(64), Call::Release(0), Call::Release(PLACE), Call::Shrink(0, 0), Call::Shrink(PLACE, 1)];
    let more = [Call::Query(0), Call::Query(PLACE), Call::SoftReset, Call::HardReset, Call::Alloc(0)];
    let bad = Call::Create(Create { slot_words: 0, ..ample(64, 0) });
    for call in calls.into_iter().chain(more).chain([bad]).chain(calls).chain(more) {
        writer.call(call);
    }
    writer.bytes()
}

/// Each creation at a limit, twice: with nothing before it, and over a state that a refused one must keep.
pub fn creation_limits() -> Vec<u8> {
    let mut writer = Writer::default();
    let good = ample(64, 0);
    let mut creates = Vec::new();
    for slot_words in [0, 1, 2, 63, 64, 65, 127, 128, 4096, 4097, 8191, 8192, 8193, 16_383, 16_384, 16_385, u32::MAX] {
        creates.push(Create { slot_words, ..good });
    }
    let bases =
        [0, 1, PLACE - 1, PLACE, PLACE + 1, 3 * PLACE, TOP - PLACE, TOP - 131_072, TOP, u64::MAX - PLACE + 1, u64::MAX];
    let lengths =
        [0, 1, PLACE - 1, PLACE, PLACE + 1, 131_072, 196_608, TOP - PLACE, TOP, u64::MAX - PLACE + 1, u64::MAX];
    for arena_base in bases {
        for arena_length in lengths {
            creates.push(Create { arena_base, arena_length, ..good });
        }
    }
    for create in &creates {
        writer.call(Call::Create(*create));
        writer.call(Call::Alloc(100));
        writer.call(Call::Alloc(100_000));
    }
    for create in &creates {
        writer.call(Call::Create(good));
        writer.call(Call::Alloc(100));
        writer.call(Call::Create(*create));
        writer.call(Call::Query(good.arena_base));
        writer.call(Call::Alloc(64));
    }
    writer.bytes()
}

/// Every listed and odd granularity with every listed and odd base size, and flags with idle bits set.
pub fn creation_options() -> Vec<u8> {
    let mut writer = Writer::default();
    for granularity in GRANULARITIES.into_iter().chain(ODD_GRANULARITIES) {
        for block_size in listed_block_sizes().into_iter().chain(ODD_BLOCK_SIZES) {
            let create = Create { block_size, granularity, slot_words: 8192, ..ample(64, 0) };
            writer.call(Call::Create(create));
            writer.call(Call::Alloc(u64::from(block_size).max(1)));
            writer.call(Call::Alloc(1));
        }
    }
    for flags in [0, 1, 2, 3, 4, 5, 6, 7, 8, u32::MAX, u32::MAX - 1, u32::MAX - 2, u32::MAX - 3] {
        writer.call(Call::Create(Create { flags, ..ample(64, 0) }));
        for size in [64, 128, 256, 384] {
            writer.call(Call::Alloc(size));
        }
        writer.call(Call::SoftReset);
    }
    writer.bytes()
}

/// No place: the arena is shorter than the block, or its free places are; then a place comes free again.
pub fn refused_4_place() -> Vec<u8> {
    let mut writer = Writer::default();
    for length in (1..=10).map(|places| places * PLACE) {
        let create = Create { arena_length: length, ..ample(64, 2) };
        writer.call(Call::Create(create));
        writer.call(Call::Alloc(131_072));
        writer.call(Call::Alloc(64));
        writer.call(Call::Alloc(262_144));
        writer.call(Call::Release(create.arena_base));
        writer.call(Call::Alloc(64));
        writer.call(Call::Alloc(2_147_483_584));
    }
    writer.bytes()
}

/// No slot: more blocks than slots, then one is given back.
pub fn refused_4_slot() -> Vec<u8> {
    let mut writer = Writer::default();
    // 33,554,432 is where doubling stops, so blocks stay at 4,096 words: two slots. 1 slot at W 8,192.
    for (slot_words, block_size) in [(4096, 33_554_432), (8192, 33_554_432), (8192, 16_777_216), (5000, 1 << 20)] {
        let create = Create { block_size, slot_words, arena_length: 1 << 40, ..ample(256, 2) };
        writer.call(Call::Create(create));
        for _ in 0..4 {
            writer.call(Call::Alloc(33_554_432));
        }
        writer.call(Call::Release(create.arena_base));
        writer.call(Call::Alloc(64));
        writer.call(Call::Alloc(33_554_432));
        writer.call(Call::Alloc(64));
    }
    // Three pools take a slot each, and there are two: W 4096.
    writer.call(Call::Create(Create { slot_words: 4096, ..ample(256, 1) }));
    for size in [256, 512, 1024, 256, 512, 1024] {
        writer.call(Call::Alloc(size));
    }
    writer.bytes()
}

/// Its words exceed W, by one and by many, although a smaller block would do.
pub fn refused_4_words() -> Vec<u8> {
    let mut writer = Writer::default();
    for granularity in GRANULARITIES {
        let first_words = 131_072 / granularity / 32;
        for slot_words in [1, first_words - 1, first_words, first_words + 1, 2 * first_words - 1, 2 * first_words] {
            let create = Create { slot_words, ..ample(granularity, 0) };
            writer.call(Call::Create(create));
            writer.call(Call::Alloc(131_072));
            writer.call(Call::Alloc(64));
            writer.call(Call::Alloc(131_073));
            writer.call(Call::Alloc(262_144));
        }
    }
    writer.bytes()
}

/// The edge figures on block sizes: 131,072; 393,216; 1,048,576; doubling up to 33,554,432.
pub fn block_sizes() -> Vec<u8> {
    let mut writer = Writer::default();
    let roomy = Create { slot_words: 1024, arena_length: 1 << 40, ..ample(64, 0) };
    for requests in
        [[64, 131_072, 262_144], [300_000, 1_000_000, 64], [131_072, 131_072, 1], [131_073, 262_145, 786_432]]
    {
        writer.call(Call::Create(roomy));
        for size in requests {
            writer.call(Call::Alloc(size));
        }
    }
    for block_size in listed_block_sizes() {
        writer.call(Call::Create(Create { block_size, granularity: 256, slot_words: 4096, ..roomy }));
        for _ in 0..3 {
            writer.call(Call::Alloc(u64::from(block_size)));
            writer.call(Call::Alloc(u64::from(block_size) + 1));
        }
    }
    writer.bytes()
}

/// `align_up` by a size that is no power of two is a mask: 786,496 and 1,310,784 after a block of 393,216.
pub fn block_sizes_mask() -> Vec<u8> {
    let mut writer = Writer::default();
    for first in [300_000, 393_216, 600_000, 700_000] {
        for second in
            [786_432, 786_433, 786_496, 1_048_576, 1_048_577, 1_310_720, 1_310_784, 1_572_864, 1_572_865, 2_097_153]
        {
            let create = Create { slot_words: 2048, arena_length: 1 << 40, ..ample(64, 0) };
            writer.call(Call::Create(create));
            writer.call(Call::Alloc(first));
            writer.call(Call::Alloc(second));
            writer.call(Call::Alloc(64));
            let end = writer.blocks().last().map_or(0, |(base, size)| base + size);
            writer.call(Call::Query(end - 64));
            writer.call(Call::Query(end));
        }
    }
    writer.bytes()
}

/// Blocks that go leave places; the lowest that is large enough is taken, exactly fitting ones too.
pub fn arena_holes() -> Vec<u8> {
    let mut writer = Writer::default();
    let create = Create { slot_words: 512, arena_length: 4 << 20, ..ample(128, 3) };
    writer.call(Call::Create(create));
    // Sizes for pools 0, 1 and 2 in turn, each filling a block.
    let sizes = [131_072 - 128, 131_072 - 256, 131_072, 262_144 - 128, 262_144 - 256, 262_144];
    for size in sizes {
        writer.call(Call::Alloc(size));
    }
    for (address, _) in writer.live.clone().into_iter().step_by(2) {
        writer.call(Call::Release(address));
        for size in [131_072, 131_072 - 128, 262_144 - 256] {
            writer.call(Call::Alloc(size));
        }
    }
    for (address, _) in writer.live.clone() {
        writer.call(Call::Release(address));
        writer.call(Call::Alloc(300_000));
    }
    writer.bytes()
}

/// Sizes at every limit, on a state without and with blocks.
pub fn sizes(create: &Create) -> Vec<u8> {
    let mut writer = Writer::default();
    writer.call(Call::Create(*create));
    for size in limit_sizes(writer.granularity) {
        writer.call(Call::Alloc(size));
        writer.call(Call::HardReset);
    }
    for size in limit_sizes(writer.granularity) {
        writer.call(Call::Alloc(size));
    }
    writer.bytes()
}

/// How many spans `addresses` has to aim at.
pub const TARGETS: u64 = 6;

/// Every call at the telling addresses of one span, among spans side by side, apart and in two blocks.
pub fn addresses(create: &Create, target: usize) -> Vec<u8> {
    let mut writer = Writer::default();
    writer.call(Call::Create(*create));
    let g = writer.granularity;
    for size in [g, 3 * g, 2 * g, 5 * g, 120_000, 131_072, 4 * g] {
        writer.call(Call::Alloc(size));
    }
    let second = writer.live[1].0;
    writer.call(Call::Release(second));
    for address in telling_addresses(&writer, writer.live[target]) {
        writer.call(Call::Query(address));
        writer.call(Call::Shrink(address, u64::MAX / 2));
        if writer.live.iter().all(|live| live.0 != address) {
            writer.call(Call::Release(address));
            writer.call(Call::Shrink(address, 0));
            writer.call(Call::Shrink(address, 1));
            writer.call(Call::Shrink(address, g));
            writer.call(Call::Shrink(address, u64::MAX));
        }
    }
    while let Some((address, _)) = writer.live.first().copied() {
        writer.call(Call::Release(address));
        writer.call(Call::Release(address));
        writer.call(Call::Query(address));
    }
    writer.bytes()
}

pub const SHRUNK_UNITS: [u64; 8] = [1, 2, 31, 32, 33, 64, 65, 100];

/// Shrinks to every telling size, of a block's first span, an inner one and its last.
pub fn shrinks(create: &Create, units: u64) -> Vec<u8> {
    let mut writer = Writer::default();
    writer.call(Call::Create(*create));
    let g = writer.granularity;
    let (block, span) = (131_072, units * g);
    for size in shrink_sizes(span, g) {
        writer.call(Call::HardReset);
        for part in [span, span, block - 3 * span, span] {
            writer.call(Call::Alloc(part));
        }
        for index in [0, 1, writer.live.len() - 1] {
            let address = writer.live[index].0;
            writer.call(Call::Shrink(address, size));
            writer.call(Call::Query(address));
        }
        writer.call(Call::Alloc(g));
        writer.call(Call::Alloc(span - g + 1));
        let last = writer.live[writer.live.len() - 1].0;
        writer.call(Call::Shrink(last, 0));
    }
    writer.bytes()
}

/// A block exactly full, in one span and in many; then a hole at its start, in the middle and at its end.
pub fn full(create: &Create) -> Vec<u8> {
    let mut writer = Writer::default();
    writer.call(Call::Create(*create));
    let g = writer.granularity;
    for part in [131_072, 65_536, 32_768, 8_192, 4_096] {
        writer.call(Call::HardReset);
        for _ in 0..131_072 / part {
            writer.call(Call::Alloc(part));
        }
        let spans = writer.live.clone();
        for index in [0, spans.len() / 2, spans.len() - 1] {
            writer.call(Call::Release(spans[index].0));
            writer.call(Call::Alloc(part));
            writer.call(Call::Shrink(spans[index].0, part - g));
            writer.call(Call::Alloc(g));
            writer.call(Call::Alloc(g));
        }
    }
    writer.bytes()
}

/// Runs that start, end or lie across the words of the map: a hole at every offset, filled to the unit.
pub fn words(create: &Create) -> Vec<u8> {
    let mut writer = Writer::default();
    writer.call(Call::Create(*create));
    let g = writer.granularity;
    for hole in [1, 2, 31, 32, 33, 63, 64, 65, 96] {
        for before in [0, 1, 30, 31, 32, 33, 63] {
            writer.call(Call::SoftReset);
            if before > 0 {
                writer.call(Call::Alloc(before * g));
            }
            let Answer::Span(address, _) = writer.call(Call::Alloc(hole * g)) else { continue };
            writer.call(Call::Alloc(g));
            writer.call(Call::Release(address));
            writer.call(Call::Alloc((hole + 1) * g));
            writer.call(Call::Alloc(hole * g));
        }
    }
    writer.bytes()
}

/// Resets and second creations with blocks in every pool, kept empty ones among them.
pub fn resets(create: &Create) -> Vec<u8> {
    let mut writer = Writer::default();
    writer.call(Call::Create(*create));
    let g = writer.granularity;
    let fill = |writer: &mut Writer| {
        for size in [g, 2 * g, 4 * g, 131_072, 131_072 - g, 131_072 - 2 * g, 65_536 + g] {
            writer.call(Call::Alloc(size));
        }
    };
    for call in [Call::SoftReset, Call::HardReset, Call::SoftReset, Call::SoftReset, Call::Create(*create)] {
        fill(&mut writer);
        writer.call(call);
        writer.call(Call::Query(create.arena_base));
        writer.call(Call::Release(create.arena_base));
        fill(&mut writer);
        // An empty block is kept, behind or before others of its pool.
        for (address, _) in writer.live.clone().into_iter().rev().step_by(2) {
            writer.call(Call::Release(address));
        }
        writer.call(call);
    }
    writer.bytes()
}
