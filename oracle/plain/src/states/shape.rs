//! "BadShape": the clauses as 01 prints them, in its order. Each is tested by itself and in exact arithmetic, on
//! whatever numbers the record has, so a state can break several.

use super::record::{Block, DIRTY, EMPTY, LIMIT, Record};
use crate::{PLACE, is_arena};

/// The clauses that a state breaks: none if it has a good shape. Of the slices only the lengths are seen.
pub fn broken(record: &Record, used_words: u64, stop_words: u64) -> Vec<&'static str> {
    let mut names = numbers(record);
    names.extend(slices(record, used_words, stop_words));
    names.extend(blocks(record));
    names.extend(pairs(record));
    names.extend(sums(record));
    names.extend(lists(record));
    names
}

fn named<const N: usize>(tests: [(&'static str, bool); N]) -> Vec<&'static str> {
    tests.into_iter().filter(|(_, is_broken)| *is_broken).map(|(name, _)| name).collect()
}

/// "creation's numbers in the record outside the limits above, or slots not 1 to 64"
fn numbers(record: &Record) -> Vec<&'static str> {
    let base_sizes: Vec<u64> = (16..=25).map(|power| 1 << power).collect();
    named([
        ("granularity", ![64, 128, 256].contains(&record.granularity)),
        ("base size", !base_sizes.contains(&record.base_size)),
        ("pools", ![1, 3].contains(&record.pools)),
        ("W", !(1..=16_384).contains(&record.slot_words)),
        ("arena", !is_arena(record.arena_base, record.arena_length)),
        ("slots", !(1..=64).contains(&record.slots)),
    ])
}

/// "lent slices shorter than slots times W; more blocks than slots"
fn slices(record: &Record, used_words: u64, stop_words: u64) -> Vec<&'static str> {
    let words = u128::from(record.slots) * u128::from(record.slot_words);
    named([
        ("used slice", u128::from(used_words) < words),
        ("stop slice", u128::from(stop_words) < words),
        ("more blocks than slots", record.count > record.slots),
    ])
}

/// The clauses on one block.
fn blocks(record: &Record) -> Vec<&'static str> {
    let any = |test: &dyn Fn(&Block) -> bool| record.standing().iter().any(test);
    let bytes = |block: &Block| u128::from(block.area) * u128::from(record.granularity);
    let arena_end = u128::from(record.arena_base) + u128::from(record.arena_length);
    let outside = |block: &Block| block.base < record.arena_base || end(block) > arena_end;
    named([
        // "a slot or pool number too large"
        ("slot number", any(&|block| block.slot >= record.slots)),
        ("pool number", any(&|block| block.pool >= record.pools)),
        // "a block's base not a multiple of 65,536"
        ("base", any(&|block| block.base % PLACE != 0)),
        // "a block's area 0, not a multiple of 32, times g not its size, or past its slot"
        ("area 0", any(&|block| block.area == 0)),
        ("area not of whole words", any(&|block| block.area % 32 != 0)),
        ("area not the size", any(&|block| bytes(block) != u128::from(block.size))),
        ("area past the slot", any(&|block| u128::from(block.area) > 32 * u128::from(record.slot_words))),
        // "used, window or largest field above the area"
        ("used field", any(&|block| block.used > block.area)),
        ("window start", any(&|block| block.start > block.area)),
        ("window end", any(&|block| block.end > block.area)),
        ("largest field", any(&|block| block.largest > block.area)),
        // "a block outside the arena"
        ("outside the arena", any(&outside)),
        // "the empty flag not matching used 0"
        ("empty flag", any(&|block| (block.flags & EMPTY != 0) != (block.used == 0))),
        // "another flag"
        ("another flag", any(&|block| block.flags & !(EMPTY | DIRTY) != 0)),
    ])
}

fn end(block: &Block) -> u128 {
    u128::from(block.base) + u128::from(block.size)
}

/// "two blocks sharing a slot or bytes"
fn pairs(record: &Record) -> Vec<&'static str> {
    let standing = record.standing();
    let any = |test: &dyn Fn(&Block, &Block) -> bool| {
        (0..standing.len()).any(|later| standing[..later].iter().any(|block| test(block, &standing[later])))
    };
    let meet = |one: &Block, other: &Block| u128::from(one.base) < end(other) && u128::from(other.base) < end(one);
    named([("shared slot", any(&|one, other| one.slot == other.slot)), ("shared bytes", any(&meet))])
}

/// The clauses on sums.
fn sums(record: &Record) -> Vec<&'static str> {
    let of_pool = |pool: usize| record.standing().iter().filter(move |block| block.pool == pool as u64);
    let any = |test: &dyn Fn(usize) -> bool| (0..3).any(test);
    let empties = |pool: usize| of_pool(pool).filter(|block| block.flags & EMPTY != 0).count();
    let area = |pool: usize| of_pool(pool).map(|block| u64::from(block.area)).sum::<u64>();
    let used = |pool: usize| of_pool(pool).map(|block| u64::from(block.used)).sum::<u64>();
    let used_units: u64 = record.standing().iter().map(|block| u64::from(block.used)).sum();
    named([
        // "a pool's stored sums or empty count unlike its blocks"; its unit is g, in force or not
        ("pool's unit", any(&|pool| record.pool[pool].granularity != record.granularity)),
        ("pool's blocks", any(&|pool| record.pool[pool].blocks as usize != of_pool(pool).count())),
        ("pool's empty count", any(&|pool| record.pool[pool].empty as usize != empties(pool))),
        ("pool's area", any(&|pool| u64::from(record.pool[pool].area) != area(pool))),
        ("pool's used units", any(&|pool| u64::from(record.pool[pool].used) != used(pool))),
        // "two empty blocks in a pool, or one under immediate release"
        ("two empty blocks", any(&|pool| empties(pool) >= 2)),
        ("empty under immediate release", record.immediate_release && any(&|pool| empties(pool) >= 1)),
        // "live count above the used units"
        ("live count", record.live > used_units),
    ])
}

/// "the address order not every block once by rising base; an entry of either list past the last block not zero"
fn lists(record: &Record) -> Vec<&'static str> {
    let standing = record.standing();
    let order = &record.order[..standing.len()];
    let once = |age: usize| order.iter().filter(|entry| **entry == age as u64).count() == 1;
    let every_once = (0..standing.len()).all(once);
    let base = |age: u64| standing[age as usize].base;
    named([
        ("order not every block once", !every_once),
        ("order not rising", every_once && order.windows(2).any(|two| base(two[0]) >= base(two[1]))),
        ("block behind the last", record.blocks[standing.len()..LIMIT].iter().any(|block| *block != Block::default())),
        ("order behind the last", record.order[standing.len()..LIMIT].iter().any(|age| *age != 0)),
    ])
}
