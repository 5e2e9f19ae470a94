//! Random traces, with every option, fragmenting ones, and long ones.

use super::numbers::*;
use crate::random::Random;
use crate::writer::Writer;
use original::trace::{Call, Create};

/// Numbers of a creation, at random: every option, and slots that mostly hold a first block.
fn random_create(random: &mut Random) -> Create {
    let granularity = if random.percent(85) { random.pick(&GRANULARITIES) } else { random.pick(&ODD_GRANULARITIES) };
    let block_size = match random.weighted(&[50, 35, 15]) {
        0 => 65_536,
        1 => random.pick(&listed_block_sizes()),
        _ => random.pick(&ODD_BLOCK_SIZES),
    };
    let g = if GRANULARITIES.contains(&granularity) { granularity } else { 64 };
    let size = if listed_block_sizes().contains(&block_size) { block_size } else { 65_536 };
    let first_words = (2 * size).min(1 << 25) / g / 32;
    let slot_words = match random.weighted(&[70, 20, 10]) {
        0 => (first_words << random.below(5)).min(8192),
        1 => random.range(u64::from(first_words.min(8191)), 8192) as u32,
        _ => random.range(1, 8192) as u32,
    };
    let flags = random.below(4) as u32 | if random.percent(10) { 0xFFFF_FFFC } else { 0 };
    let places = match random.weighted(&[40, 20, 20, 10, 10]) {
        0 => 1 << 14,
        1 => random.range(2, 40),
        2 => random.range(40, 400),
        3 => 2 * u64::from(size) / PLACE,
        _ => random.range(1, TOP / PLACE - 1),
    };
    let highest = TOP / PLACE - places;
    let base = match random.weighted(&[40, 20, 20, 20]) {
        0 => 64.min(highest),
        1 => 1,
        2 => highest,
        _ => random.range(1, highest),
    };
    Create { block_size, granularity, flags, slot_words, arena_base: base * PLACE, arena_length: places * PLACE }
}

/// Numbers of a creation, at random, whose arena has an image: few places, and base sizes that mostly fit.
fn small_create(random: &mut Random) -> Create {
    let create = random_create(random);
    let arena_length = PLACE * random.pick(&[2, 2, 3, 4, 4, 6, 7, 10, 16]);
    let block_size = match random.weighted(&[60, 30, 10]) {
        0 => 65_536,
        1 => random.pick(&[131_072, 262_144, 524_288]),
        _ => random.pick(&ODD_BLOCK_SIZES),
    };
    Create { block_size, arena_length, arena_base: create.arena_base.min(TOP - arena_length), ..create }
}

/// A creation that is refused, in one of its numbers.
fn refused_create(random: &mut Random, create: fn(&mut Random) -> Create) -> Create {
    let create = create(random);
    match random.below(6) {
        0 => Create { slot_words: 0, ..create },
        1 => Create { slot_words: random.range(8193, u64::from(u32::MAX)) as u32, ..create },
        2 => Create { arena_base: create.arena_base + random.range(1, PLACE - 1), ..create },
        3 => Create { arena_length: create.arena_length + random.range(1, PLACE - 1), ..create },
        4 => Create { arena_length: TOP - create.arena_base + PLACE, ..create },
        _ => Create { arena_base: 0u64.wrapping_sub(create.arena_length), ..create },
    }
}

/// How a random trace chooses: the scale of its sizes in units, and the weights of its calls.
struct Manner {
    units: u64,
    /// alloc, release, shrink, query, soft reset, hard reset, good create, refused create
    weights: [u64; 8],
    create: fn(&mut Random) -> Create,
}

fn random_manner(random: &mut Random) -> Manner {
    let units = random.pick(&[4, 40, 40, 300, 300, 1000, 3000, 20_000]);
    let alloc = random.pick(&[350, 450, 600]);
    let release = random.pick(&[150, 250, 350]);
    let resets = random.pick(&[0, 3, 10]);
    let creates = random.pick(&[0, 0, 4]);
    let weights = [alloc, release, 150, 100, resets, resets / 2, creates, 6];
    Manner { units, weights, create: random_create }
}

/// Small spans, since a write reaches 225 bytes; many resets.
fn small_manner(random: &mut Random) -> Manner {
    let units = random.pick(&[1, 2, 4, 4, 40, 300]);
    let alloc = random.pick(&[350, 450, 600]);
    let release = random.pick(&[150, 250, 350]);
    Manner { units, weights: [alloc, release, 150, 60, 60, 20, 20, 6], create: small_create }
}

fn random_size(random: &mut Random, writer: &Writer, units: u64) -> u64 {
    let g = writer.granularity;
    match random.weighted(&[60, 20, 10, 4, 4, 2]) {
        0 => random.range(1, units) * g,
        1 => random.range(1, units * g),
        2 => random.pick(&[1, 2, 31, 32, 33, 64, 65]) * g,
        // A block's size, or what is left of one.
        3 => {
            let blocks = writer.blocks();
            let size = if blocks.is_empty() { 131_072 } else { random.pick(&blocks).1 };
            (size >> random.below(3)) - random.below(2) * g
        }
        4 => random.pick(&[65_536, 131_072, 131_073, 262_144, 300_000, 393_216, 786_496, 1_310_784, 33_554_432]),
        _ => random.pick(&limit_sizes(g)),
    }
}

fn random_address(random: &mut Random, writer: &Writer) -> u64 {
    if writer.live.is_empty() || random.percent(2) {
        return random.pick(&[0, 1, PLACE, writer.freed, TOP, u64::MAX, 4_194_304]);
    }
    let span = random.pick(&writer.live);
    match random.weighted(&[80, 14, 3, 3]) {
        0 => span.0,
        1 => random.pick(&telling_addresses(writer, span)),
        2 => writer.freed,
        _ => random.next() >> random.below(64),
    }
}

fn random_shrink(random: &mut Random, writer: &Writer) -> Call {
    let address = random_address(random, writer);
    let size = writer.live.iter().find(|span| span.0 == address).map_or(writer.granularity, |span| span.1);
    let size = if random.percent(40) {
        random.pick(&shrink_sizes(size, writer.granularity))
    } else if random.percent(5) {
        0
    } else {
        random.range(1, size)
    };
    Call::Shrink(address, size)
}

fn random_call(random: &mut Random, writer: &Writer, manner: &Manner) -> Call {
    match random.weighted(&manner.weights) {
        0 => Call::Alloc(random_size(random, writer, manner.units)),
        1 => Call::Release(random_address(random, writer)),
        2 => random_shrink(random, writer),
        3 => Call::Query(random_address(random, writer)),
        4 => Call::SoftReset,
        5 => Call::HardReset,
        6 => Call::Create((manner.create)(random)),
        _ => Call::Create(refused_create(random, manner.create)),
    }
}

/// Calls of every kind. Every other trace is short, every eighth is long.
pub fn random(number: u64) -> Vec<u8> {
    let calls = if number % 8 == 0 {
        800
    } else if number % 2 == 0 {
        200
    } else {
        60
    };
    random_calls(Random::new(0x7261_6e64 + number), calls, random_create, random_manner)
}

/// Calls of every kind in arenas that have an image.
pub fn random_small(number: u64) -> Vec<u8> {
    let calls = if number % 8 == 0 { 100 } else { 25 };
    random_calls(Random::new(0x736d_616c + number), calls, small_create, small_manner)
}

fn random_calls(
    mut random: Random,
    calls: usize,
    create: fn(&mut Random) -> Create,
    new_manner: fn(&mut Random) -> Manner,
) -> Vec<u8> {
    let mut writer = Writer::default();
    writer.call(Call::Create(create(&mut random)));
    let mut manner = new_manner(&mut random);
    for index in 0..calls {
        if index % 100 == 99 {
            manner = new_manner(&mut random);
        }
        let call = random_call(&mut random, &writer, &manner);
        writer.call(call);
    }
    writer.bytes()
}

/// Many spans, then holes in a pattern, then requests that grow until they need a new block, with shrinks.
pub fn fragments(number: u64) -> Vec<u8> {
    fragments_in(&setting(number), number)
}

/// The same in any arena.
pub fn fragments_in(create: &Create, number: u64) -> Vec<u8> {
    let mut random = Random::new(0x6672_6167 + number);
    let mut writer = Writer::default();
    writer.call(Call::Create(*create));
    let g = writer.granularity;
    let largest = random.pick(&[1, 3, 8, 33, 70]);
    for _ in 0..random.range(100, 300) {
        writer.call(Call::Alloc(random.range(1, largest) * g));
    }
    let step = random.range(2, 5) as usize;
    for (index, (address, size)) in writer.live.clone().into_iter().enumerate() {
        match index % step {
            0 => writer.call(Call::Release(address)),
            1 if random.percent(50) => writer.call(Call::Shrink(address, random.range(1, size))),
            _ => continue,
        };
    }
    for round in 0..60 {
        writer.call(Call::Alloc((1 + round * largest / 20) * g));
        if random.percent(30) && !writer.live.is_empty() {
            let address = random.pick(&writer.live).0;
            writer.call(Call::Release(address));
        }
    }
    writer.bytes()
}

/// Allocations, releases, shrinks and queries of live spans, of which there are about `live` once that many were made.
pub fn long(calls: usize, live: usize) -> Vec<u8> {
    let mut random = Random::new(0x6c6f_6e67 + live as u64);
    let mut writer = Writer::default();
    let create = Create {
        block_size: 65_536,
        granularity: 64,
        flags: 0,
        slot_words: 512,
        arena_base: 64 * PLACE,
        arena_length: 1 << 30,
    };
    writer.call(Call::Create(create));
    for _ in 1..calls {
        let alloc = if writer.live.len() < live { 50 } else { 30 };
        let call = match random.weighted(&[alloc, 40, 10, 10]) {
            choice if choice == 0 || writer.live.is_empty() => Call::Alloc(random.range(1, 40 * 64)),
            1 => Call::Release(random.pick(&writer.live).0),
            2 => {
                let (address, size) = random.pick(&writer.live);
                Call::Shrink(address, random.range(1, size))
            }
            _ => Call::Query(random.pick(&writer.live).0),
        };
        writer.call(call);
    }
    writer.bytes()
}
