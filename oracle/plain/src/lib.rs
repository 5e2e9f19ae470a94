//! The allocator of docs/01-scope.md, written from that document alone and the plain way.
//!
//! No windows, no dirty flag, no largest-run field, no stored counts: every block is walked from unit 0, and
//! what has to be known is counted. The functions stand in the document's order, and a comment in quotation
//! marks is its sentence. States that no trace reaches (refusal 6, a bad shape) have no place here: `states`
//! has the record as it is stored, with every number that 01 names, and plays calls on any such record.

pub mod filled;
pub mod filling;
pub mod states;
pub mod trace;

// ---------------------------------------------------------------------------------------------- Numbers

/// "Arena: base and length non-zero multiples of 65,536, base plus length at most 2^48."
const PLACE: u64 = 65_536;
const ARENA_END: u128 = 1 << 48;

/// "a power of two from 65,536 to 33,554,432": the last is also where doubling stops.
const MAX_BLOCK_SIZE: u64 = 33_554_432;

/// "The program holds 8,192 words of each map."
const MAP_WORDS: u32 = 8_192;

pub const INVALID_ARGUMENT: u32 = 1;
pub const TOO_LARGE: u32 = 2;
pub const INVALID_STATE: u32 = 3;
pub const NO_MAPPING: u32 = 4;
pub const BAD_SHAPE: u32 = 5;
pub const DAMAGED: u32 = 6;

/// A refusal's number.
pub type Refusal = u32;

/// An address and a number of bytes.
pub type Bytes = (u64, u64);

/// The six numbers of a creation, as asked.
#[derive(Clone, Copy)]
pub struct Asked {
    pub block_size: u32,
    pub granularity: u32,
    pub flags: u32,
    pub slot_words: u32,
    pub arena_base: u64,
    pub arena_length: u64,
}

pub struct Block {
    pub base: u64,
    pub size: u64,
    pub pool: usize,
    pub slot: usize,
    pub used: Vec<bool>,
    pub stop: Vec<bool>,
}

pub struct Allocator {
    pub base_size: u64,
    pub granularity: u64,
    pub pools: usize,
    immediate_release: bool,
    slot_words: usize,
    slots: usize,
    arena_base: u64,
    arena_length: u64,
    /// Oldest first.
    pub blocks: Vec<Block>,
}

/// "Granularity g: 64, 128 or 256. Any other request becomes 64."
fn granularity(asked: u32) -> u64 {
    if [64, 128, 256].contains(&asked) { u64::from(asked) } else { 64 }
}

/// "Base block size: a power of two from 65,536 to 33,554,432. Any other request becomes 65,536."
fn base_size(asked: u32) -> u64 {
    let listed = (16..=25).any(|power| asked == 1 << power);
    if listed { u64::from(asked) } else { 65_536 }
}

/// "Slots: the smaller of 64 and the whole slots of W in the shorter slice."
fn slots(slot_words: u32, shorter: u32) -> u32 {
    (shorter / slot_words).min(64)
}

/// "base and length non-zero multiples of 65,536, base plus length at most 2^48"
fn is_arena(base: u64, length: u64) -> bool {
    base != 0
        && length != 0
        && base % PLACE == 0
        && length % PLACE == 0
        && u128::from(base) + u128::from(length) <= ARENA_END
}

/// "It is refused (1) ... if W, the slots (none) or the arena break these rules."
fn is_creation(asked: &Asked, shorter: u32) -> bool {
    // "Slot words W: 1 to 16,384."
    (1..=16_384).contains(&asked.slot_words)
        && slots(asked.slot_words, shorter) != 0
        && is_arena(asked.arena_base, asked.arena_length)
}

/// "Size. Round up to g; rounding up wraps at the top of 64 bits. Zero is refusal 1. Above 2,147,483,647 is
/// refusal 2."
fn rounded_size(asked: u64, granularity: u64) -> Result<u64, Refusal> {
    // Where there is no next multiple in 64 bits, it is 2^64 itself.
    match asked.checked_next_multiple_of(granularity).unwrap_or(0) {
        0 => Err(INVALID_ARGUMENT),
        rounded @ 1..=2_147_483_647 => Ok(rounded),
        _ => Err(TOO_LARGE),
    }
}

/// "Pool. One pool: 0. Three: pool 2 if the rounded size is a multiple of 4g, else 1 if of 2g, else 0."
fn pool_of(size: u64, granularity: u64, pools: u64) -> usize {
    if pools == 1 {
        0
    } else if size % (4 * granularity) == 0 {
        2
    } else if size % (2 * granularity) == 0 {
        1
    } else {
        0
    }
}

/// The size of a block for a request, from "the size of the pool's newest block, or the base size if there is
/// none".
fn new_block_size(start: u64, request: u64) -> u64 {
    // "double it if it is below 33,554,432."
    let size = if start < MAX_BLOCK_SIZE { 2 * start } else { start };
    // "If the rounded request is larger, apply `align_up` with that size as the alignment. That is a bit
    // mask, not a true multiple for 786,432."
    if request > size { (request + (size - 1)) & !(size - 1) } else { size }
}

impl Allocator {
    /// "Creation ... makes no block. It is refused (1), with nothing written, if W, the slots (none) or the
    /// arena break these rules."
    pub fn create(asked: &Asked) -> Result<Allocator, Refusal> {
        if !is_creation(asked, MAP_WORDS) {
            return Err(INVALID_ARGUMENT);
        }
        Ok(Allocator {
            base_size: base_size(asked.block_size),
            granularity: granularity(asked.granularity),
            // "flags u32 with bit 0 three pools and bit 1 immediate release, other bits ignored"
            pools: if asked.flags & 1 == 1 { 3 } else { 1 },
            immediate_release: asked.flags & 2 == 2,
            slot_words: asked.slot_words as usize,
            slots: slots(asked.slot_words, MAP_WORDS) as usize,
            arena_base: asked.arena_base,
            arena_length: asked.arena_length,
            blocks: Vec::new(),
        })
    }

    // ------------------------------------------------------------------------- Rules of the bookkeeping

    pub fn alloc(&mut self, asked: u64) -> Result<Bytes, Refusal> {
        let size = rounded_size(asked, self.granularity)?;
        let pool = pool_of(size, self.granularity, self.pools as u64);
        let units = (size / self.granularity) as usize;
        let (index, start) = match self.search(pool, units) {
            Some(found) => found,
            None => (self.new_block(pool, size)?, 0),
        };
        let block = &mut self.blocks[index];
        mark(block, start, units);
        Ok((block.base + start as u64 * self.granularity, size))
    }

    /// "Search. Blocks of the pool, oldest first. ... In any state reached by calls this equals the lowest fit
    /// in the whole block."
    fn search(&self, pool: usize, units: usize) -> Option<(usize, usize)> {
        for (index, block) in self.blocks.iter().enumerate() {
            if block.pool == pool
                && let Some(start) = lowest_fit(&block.used, units)
            {
                return Some((index, start));
            }
        }
        None
    }

    /// "New block." Answers its index; the block is the newest.
    fn new_block(&mut self, pool: usize, request: u64) -> Result<usize, Refusal> {
        // "Start from the size of the pool's newest block, or the base size if there is none"
        let newest = self.blocks.iter().rfind(|block| block.pool == pool);
        let size = new_block_size(newest.map_or(self.base_size, |block| block.size), request);
        let area = (size / self.granularity) as usize;
        // "Refusal 4 exactly if there is no such place, no free slot, or its words exceed W."
        let (Some(base), Some(slot)) = (self.place(size), self.free_slot()) else {
            return Err(NO_MAPPING);
        };
        if area > 32 * self.slot_words {
            return Err(NO_MAPPING);
        }
        // "Its slot is cleared."
        self.blocks.push(Block { base, size, pool, slot, used: vec![false; area], stop: vec![false; area] });
        Ok(self.blocks.len() - 1)
    }

    /// "the block stands at the lowest multiple of 65,536 where it lies within the arena and meets no
    /// standing block."
    fn place(&self, size: u64) -> Option<u64> {
        let mut base = self.arena_base;
        while base + size <= self.arena_base + self.arena_length {
            let meets = |block: &Block| base < block.base + block.size && block.base < base + size;
            if !self.blocks.iter().any(meets) {
                return Some(base);
            }
            base += PLACE;
        }
        None
    }

    /// "A block takes the lowest free slot."
    fn free_slot(&self) -> Option<usize> {
        (0..self.slots).find(|slot| !self.blocks.iter().any(|block| block.slot == *slot))
    }

    /// The block that holds the address.
    fn block_of(&self, address: u64) -> Option<usize> {
        self.blocks.iter().position(|block| block.base <= address && address < block.base + block.size)
    }

    /// "Span start." Answers the span's first unit and the unit behind its last.
    fn span(&self, index: usize, address: u64) -> Result<(usize, usize), Refusal> {
        let block = &self.blocks[index];
        let offset = address - block.base;
        // "its offset in its block is a multiple of g, its unit is used, and it is unit 0, or the unit before
        // is free or has a stop bit."
        if offset % self.granularity != 0 {
            return Err(INVALID_ARGUMENT);
        }
        let unit = (offset / self.granularity) as usize;
        let starts = block.used[unit] && (unit == 0 || !block.used[unit - 1] || block.stop[unit - 1]);
        if !starts {
            return Err(INVALID_ARGUMENT);
        }
        // "The span ends with the next stop bit."
        let last = (unit..block.stop.len()).find(|unit| block.stop[*unit]);
        Ok((unit, last.expect("in states reached by calls every span has its stop bit") + 1))
    }

    /// "Release." Answers the address and the freed bytes.
    pub fn release(&mut self, address: u64) -> Result<Bytes, Refusal> {
        // "release or shrink of address 0"
        if address == 0 {
            return Err(INVALID_ARGUMENT);
        }
        // "release, or shrink to 0, of a non-zero address in no block"
        let Some(index) = self.block_of(address) else {
            return Err(INVALID_STATE);
        };
        let (start, end) = self.span(index, address)?;
        let keeps_empty = self.keeps_an_empty_block(self.blocks[index].pool);
        // "Used bits and last stop bit off"
        let block = &mut self.blocks[index];
        block.used[start..end].fill(false);
        block.stop[end - 1] = false;
        // "A block with used count 0 ... is removed if its pool already keeps an empty block or immediate
        // release is set"
        if is_empty(block) && (keeps_empty || self.immediate_release) {
            self.blocks.remove(index);
        }
        Ok((address, (end - start) as u64 * self.granularity))
    }

    fn keeps_an_empty_block(&self, pool: usize) -> bool {
        self.blocks.iter().any(|block| block.pool == pool && is_empty(block))
    }

    /// "Shrink." Answers the address and the bytes that are left.
    pub fn shrink(&mut self, address: u64, size: u64) -> Result<Bytes, Refusal> {
        if address == 0 {
            return Err(INVALID_ARGUMENT);
        }
        // "query or non-zero shrink of an address in no block"
        let Some(index) = self.block_of(address) else {
            return Err(INVALID_ARGUMENT);
        };
        let (start, end) = self.span(index, address)?;
        // "units = new size over g, rounded up, exactly."
        let units = size.div_ceil(self.granularity);
        // "shrink to more units than the span has"
        if units > (end - start) as u64 {
            return Err(INVALID_STATE);
        }
        // "The tail's used bits and old stop bit go off, ... a stop bit goes on at the new last unit ... Equal
        // units change nothing."
        let new_end = start + units as usize;
        let block = &mut self.blocks[index];
        block.used[new_end..end].fill(false);
        block.stop[end - 1] = false;
        block.stop[new_end - 1] = true;
        Ok((address, units * self.granularity))
    }

    /// "A granted query is written as an allocation is"
    pub fn query(&self, address: u64) -> Result<Bytes, Refusal> {
        let Some(index) = self.block_of(address) else {
            return Err(INVALID_ARGUMENT);
        };
        let (start, end) = self.span(index, address)?;
        Ok((address, (end - start) as u64 * self.granularity))
    }

    /// "Reset. Hard, or soft with immediate release: all blocks go."
    pub fn hard_reset(&mut self) {
        self.blocks.clear();
    }

    /// "Soft: each pool keeps its oldest block, if any, slot cleared and record as at used count 0."
    pub fn soft_reset(&mut self) {
        if self.immediate_release {
            return self.hard_reset();
        }
        let mut kept = [false; 3];
        self.blocks.retain_mut(|block| {
            block.used.fill(false);
            block.stop.fill(false);
            !std::mem::replace(&mut kept[block.pool], true)
        });
    }

    // -------------------------------------------------------------------------------------- The end line

    /// Live spans: each has one stop bit.
    pub fn live(&self) -> usize {
        self.blocks.iter().map(|block| count(&block.stop)).sum()
    }

    pub fn used_units(&self) -> usize {
        self.blocks.iter().map(|block| count(&block.used)).sum()
    }
}

/// The lowest i with `units` free units from i on.
fn lowest_fit(used: &[bool], units: usize) -> Option<usize> {
    let mut free_before = 0;
    for (unit, is_used) in used.iter().enumerate() {
        free_before = if *is_used { 0 } else { free_before + 1 };
        if free_before == units {
            return Some(unit + 1 - units);
        }
    }
    None
}

/// "Marking. Used bits on, stop bit on at the last unit"
fn mark(block: &mut Block, start: usize, units: usize) {
    block.used[start..start + units].fill(true);
    block.stop[start + units - 1] = true;
}

fn is_empty(block: &Block) -> bool {
    count(&block.used) == 0
}

fn count(map: &[bool]) -> usize {
    map.iter().filter(|bit| **bit).count()
}
