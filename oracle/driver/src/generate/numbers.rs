//! The numbers that traces choose from.

use crate::writer::Writer;
use original::trace::Create;

pub const GRANULARITIES: [u32; 3] = [64, 128, 256];
pub const ODD_GRANULARITIES: [u32; 9] = [0, 1, 32, 63, 65, 96, 192, 512, u32::MAX];
pub const ODD_BLOCK_SIZES: [u32; 9] = [0, 1, 32_768, 65_535, 65_537, 98_304, 67_108_864, 1 << 31, u32::MAX];
pub const PLACE: u64 = 65_536;
pub const TOP: u64 = 1 << 48;

pub fn listed_block_sizes() -> Vec<u32> {
    (16..=25).map(|power| 1 << power).collect()
}

/// A create with ample room: base size 65,536 in `granularity`, blocks up to 1 MiB.
pub fn ample(granularity: u32, flags: u32) -> Create {
    let slot_words = (1 << 20) / granularity / 32;
    Create { block_size: 65_536, granularity, flags, slot_words, arena_base: 4_194_304, arena_length: 1 << 30 }
}

/// The 48 settings of the directed traces: granularity, flags, and where the arena lies.
pub fn setting(number: u64) -> Create {
    let granularity = GRANULARITIES[(number % 3) as usize];
    let mut create = ample(granularity, (number / 3 % 4) as u32);
    create.arena_base = [4_194_304, PLACE, TOP - (1 << 30), TOP / 2][(number / 12 % 4) as usize];
    create
}

/// The same settings with an arena of so many places, for filled mode.
pub fn small_setting(number: u64, places: u64) -> Create {
    Create { arena_length: places * PLACE, ..setting(number) }
}

/// Sizes at the limits of the size rule, for every granularity.
pub fn limit_sizes(g: u64) -> Vec<u64> {
    let mut sizes = vec![0, 1, g - 1, g, g + 1, 2 * g, 4 * g, 31 * g, 32 * g, 33 * g, 64 * g, 65 * g];
    for limit in [1u64 << 31, 1 << 32, 1 << 63] {
        sizes.extend([limit - 2 * g, limit - g - 1, limit - g, limit - g + 1, limit - 1, limit, limit + 1, limit + g]);
    }
    // Rounding up to 2^64 wraps to zero.
    sizes.extend([0u64.wrapping_sub(2 * g), 0u64.wrapping_sub(g) - 1, 0u64.wrapping_sub(g), 0u64.wrapping_sub(g) + 1]);
    sizes.extend([u64::MAX - 1, u64::MAX]);
    sizes
}

/// Shrink sizes: around the span's own size, and at the limits of the unit count.
pub fn shrink_sizes(size: u64, g: u64) -> Vec<u64> {
    let mut sizes = vec![size, size - 1, size - g + 1, size + 1, size + g, size.saturating_sub(g).max(1), 1, g, g + 1];
    // 2^32 units: docs/DIFFERENCES.md lists these where the address is a span start.
    let units = g << 32;
    sizes.extend([units - g, units - g + 1, units, units + 1, units + g, units + g + 1, 2 * units]);
    sizes.extend([1 << 31, 1 << 32, (1 << 32) + g, 0u64.wrapping_sub(g), 0u64.wrapping_sub(g) + 1, u64::MAX]);
    sizes
}

/// Addresses in, beside and far from a span and the blocks.
pub fn telling_addresses(writer: &Writer, span: (u64, u64)) -> Vec<u64> {
    let g = writer.granularity;
    let (start, end) = (span.0, span.0 + span.1);
    let mut addresses =
        vec![start, start + 1, start + g / 2, start - 1, start - g, start + g, end - g, end - 1, end, end + g];
    for (base, size) in writer.blocks() {
        addresses.extend([base, base - 1, base - g, base + size - g, base + size - 1, base + size]);
    }
    if let Some(create) = writer.create {
        addresses.extend([create.arena_base, create.arena_base - PLACE, create.arena_base + create.arena_length]);
    }
    addresses.extend([0, 1, g, PLACE, 1 << 32, TOP - g, TOP, u64::MAX - g + 1, u64::MAX]);
    // The span's own address with a bit beside its low ones: equal to it if cut.
    addresses.extend([start + (1 << 32), start ^ (1 << 63)]);
    addresses
}
