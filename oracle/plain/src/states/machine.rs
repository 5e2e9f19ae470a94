//! The calls on a stored state: 01's rules again, going by the stored numbers. A comment in quotation marks is 01's
//! sentence.

use super::record::{Block, DIRTY, EMPTY, LIMIT, Record, sums};
use super::shape;
use crate::{Asked, BAD_SHAPE, Bytes, DAMAGED, INVALID_ARGUMENT, INVALID_STATE, NO_MAPPING, PLACE, Refusal};
use crate::{base_size, granularity, is_creation, new_block_size, pool_of, rounded_size, slots};

pub struct State {
    pub record: Record,
    pub used: Vec<u32>,
    pub stop: Vec<u32>,
}

/// The units from the first up to the end.
type Units = std::ops::Range<u32>;

impl State {
    fn check_shape(&self) -> Result<(), Refusal> {
        let broken = shape::broken(&self.record, self.used.len() as u64, self.stop.len() as u64);
        if broken.is_empty() { Ok(()) } else { Err(BAD_SHAPE) }
    }

    /// "Creation clears all slots' words, no later ones, and makes no block. It is refused (1), with nothing
    /// written"; "a refused creation hands back a record of zeros". Answers base size, g and pools as in force.
    pub fn create(&mut self, asked: &Asked) -> Result<(u64, u64, u64), Refusal> {
        self.record = Record::zeros();
        let shorter = self.used.len().min(self.stop.len()) as u32;
        if !is_creation(asked, shorter) {
            return Err(INVALID_ARGUMENT);
        }
        let record = &mut self.record;
        record.base_size = base_size(asked.block_size);
        record.granularity = granularity(asked.granularity);
        record.pools = if asked.flags & 1 == 1 { 3 } else { 1 };
        record.immediate_release = asked.flags & 2 == 2;
        record.slot_words = u64::from(asked.slot_words);
        record.slots = u64::from(slots(asked.slot_words, shorter));
        record.arena_base = asked.arena_base;
        record.arena_length = asked.arena_length;
        record.set_blocks(&[]);
        for slot in 0..record.slots {
            self.clear_slot(slot);
        }
        Ok((self.record.base_size, self.record.granularity, self.record.pools))
    }

    // ------------------------------------------------------------------------------------------ The maps

    /// The bit of a block's unit.
    fn bit(&self, map: &[u32], block: &Block, unit: u32) -> bool {
        let word = block.slot * self.record.slot_words + u64::from(unit / 32);
        map[word as usize] >> (unit % 32) & 1 == 1
    }

    fn set_used(&mut self, block: &Block, units: Units, on: bool) {
        let first = block.slot * self.record.slot_words * 32;
        units.for_each(|unit| set_bit(&mut self.used, first + u64::from(unit), on));
    }

    fn set_stop(&mut self, block: &Block, unit: u32, on: bool) {
        let first = block.slot * self.record.slot_words * 32;
        set_bit(&mut self.stop, first + u64::from(unit), on);
    }

    fn clear_slot(&mut self, slot: u64) {
        let words = (slot * self.record.slot_words) as usize..((slot + 1) * self.record.slot_words) as usize;
        self.used[words.clone()].fill(0);
        self.stop[words].fill(0);
    }

    // --------------------------------------------------------------------------------------------- alloc

    /// "in an allocation 5, 1, 2, 4"
    pub fn alloc(&mut self, asked: u64) -> Result<Bytes, Refusal> {
        self.check_shape()?;
        let size = rounded_size(asked, self.record.granularity)?;
        let pool = pool_of(size, self.record.granularity, self.record.pools);
        let units = (size / self.record.granularity) as u32;
        let (age, first) = match self.search(pool, units) {
            Some(found) => found,
            None => (self.new_block(pool, size)?, 0),
        };
        self.mark(age, first..first + units);
        Ok((self.record.blocks[age].base + u64::from(first) * self.record.granularity, size))
    }

    /// "Search. Blocks of the pool, oldest first." Answers an age and a unit.
    fn search(&mut self, pool: usize, units: u32) -> Option<(usize, u32)> {
        for age in 0..self.record.count as usize {
            let block = self.record.blocks[age];
            // "A block is looked into if its free units (area less used count) are at least n and it is dirty or
            // its largest-run field is at least n."
            let is_looked_into =
                block.area - block.used >= units && (block.flags & DIRTY != 0 || block.largest >= units);
            if block.pool != pool as u64 || !is_looked_into {
                continue;
            }
            // "The answer is the lowest i in the window, i + n not past the window's end, with n free units."
            let runs = self.free_runs(&block);
            if let Some(run) = runs.iter().find(|run| run.end - run.start >= units) {
                return Some((age, run.start));
            }
            // "If there is none and the window has a free unit, the window's start becomes its first free unit, its
            // end the end of its last free run, the largest-run field its longest free run, and dirty is cleared."
            if let (Some(first), Some(last)) = (runs.first(), runs.last()) {
                let block = &mut self.record.blocks[age];
                block.start = first.start;
                block.end = last.end;
                block.largest = runs.iter().map(|run| run.end - run.start).max().unwrap_or(0);
                block.flags &= !DIRTY;
            }
        }
        None
    }

    /// The runs of free units in a block's window, each as long as it can be there.
    fn free_runs(&self, block: &Block) -> Vec<Units> {
        let mut runs: Vec<Units> = Vec::new();
        for unit in (block.start..block.end).filter(|unit| !self.bit(&self.used, block, *unit)) {
            match runs.last_mut() {
                Some(run) if run.end == unit => run.end += 1,
                _ => runs.push(unit..unit + 1),
            }
        }
        runs
    }

    /// "New block." Answers its age.
    fn new_block(&mut self, pool: usize, request: u64) -> Result<usize, Refusal> {
        let record = &self.record;
        let newest = record.standing().iter().rfind(|block| block.pool == pool as u64);
        let size = new_block_size(newest.map_or(record.base_size, |block| block.size), request);
        let area = size / record.granularity;
        // "Refusal 4 exactly if there is no such place, no free slot, or its words exceed W."
        let (Some(base), Some(slot)) = (self.place(size), self.free_slot()) else {
            return Err(NO_MAPPING);
        };
        if area.div_ceil(32) > record.slot_words {
            return Err(NO_MAPPING);
        }
        // "Its slot is cleared." "Before marking: window n to the area size, largest-run field the area size less n."
        let (area, units) = (area as u32, (request / record.granularity) as u32);
        let block = Block {
            base,
            size,
            pool: pool as u64,
            slot,
            flags: 0,
            area,
            used: 0,
            start: units,
            end: area,
            largest: area - units,
        };
        self.clear_slot(slot);
        self.record.set_blocks(&[self.record.standing(), &[block]].concat());
        Ok(self.record.count as usize - 1)
    }

    /// "the lowest multiple of 65,536 where it lies within the arena and meets no standing block"
    fn place(&self, size: u64) -> Option<u64> {
        let record = &self.record;
        let mut base = record.arena_base;
        while base + size <= record.arena_base + record.arena_length {
            let meets = |block: &Block| base < block.base + block.size && block.base < base + size;
            if !record.standing().iter().any(meets) {
                return Some(base);
            }
            base += PLACE;
        }
        None
    }

    /// "A block takes the lowest free slot."
    fn free_slot(&self) -> Option<u64> {
        (0..self.record.slots).find(|slot| !self.record.standing().iter().any(|block| block.slot == *slot))
    }

    /// "Marking."
    fn mark(&mut self, age: usize, span: Units) {
        let mut block = self.record.blocks[age];
        // "Used bits on, stop bit on at the last unit, used counts up by n, live count by 1."
        self.set_used(&block, span.clone(), true);
        self.set_stop(&block, span.end - 1, true);
        block.used += span.end - span.start;
        self.record.live += 1;
        if block.used == block.area {
            // "If the block is now full: window start is the area size, end 0, largest 0, dirty off."
            (block.start, block.end, block.largest) = (block.area, 0, 0);
            block.flags &= !DIRTY;
        } else {
            // "Otherwise a window edge that equals the span's own edge moves to its other edge, and dirty is on."
            let moved = |edge, own, other| if edge == own { other } else { edge };
            block.start = moved(block.start, span.start, span.end);
            block.end = moved(block.end, span.end, span.start);
            block.flags |= DIRTY;
        }
        // "A block flagged empty loses the flag, and its pool's empty count falls by one."
        block.flags &= !EMPTY;
        self.put_block(age, block);
    }

    /// A block's record changes, and with it the sums of its pool.
    fn put_block(&mut self, age: usize, block: Block) {
        self.record.blocks[age] = block;
        let pool = block.pool as usize;
        self.record.pool[pool] = sums(self.record.granularity, self.record.standing(), pool);
    }

    // ------------------------------------------------------------------------ query, release and shrink

    /// The age of the block that holds the address.
    fn block_of(&self, address: u64) -> Option<usize> {
        self.record.standing().iter().position(|block| block.base <= address && address < block.base + block.size)
    }

    /// "Span start."
    fn span(&self, age: usize, address: u64) -> Result<Units, Refusal> {
        let block = &self.record.blocks[age];
        let offset = address - block.base;
        // "An address is one if its offset in its block is a multiple of g, its unit is used, and it is unit 0, or
        // the unit before is free or has a stop bit."
        let unit = (offset / self.record.granularity) as u32;
        let starts = offset % self.record.granularity == 0
            && self.bit(&self.used, block, unit)
            && (unit == 0 || !self.bit(&self.used, block, unit - 1) || self.bit(&self.stop, block, unit - 1));
        if !starts {
            return Err(INVALID_ARGUMENT);
        }
        // "The span ends with the next stop bit." Refusal 6: "a span start whose area has no stop bit from there on"
        match (unit..block.area).find(|unit| self.bit(&self.stop, block, *unit)) {
            Some(last) => Ok(unit..last + 1),
            None => Err(DAMAGED),
        }
    }

    fn bytes(&self, address: u64, span: &Units) -> Bytes {
        (address, u64::from(span.end - span.start) * self.record.granularity)
    }

    pub fn query(&self, address: u64) -> Result<Bytes, Refusal> {
        self.check_shape()?;
        let age = self.block_of(address).ok_or(INVALID_ARGUMENT)?;
        Ok(self.bytes(address, &self.span(age, address)?))
    }

    /// "Order: 5 first, then address 0, no block, span start, 6, then the comparison of units". An address in no
    /// block is refused by the number given.
    fn span_to_change(&self, address: u64, no_block: Refusal) -> Result<(usize, Units), Refusal> {
        self.check_shape()?;
        if address == 0 {
            return Err(INVALID_ARGUMENT);
        }
        let age = self.block_of(address).ok_or(no_block)?;
        let span = self.span(age, address)?;
        // "in release and shrink also a span longer than the block's used count"
        if span.end - span.start > self.record.blocks[age].used {
            return Err(DAMAGED);
        }
        Ok((age, span))
    }

    /// "Release."
    pub fn release(&mut self, address: u64) -> Result<Bytes, Refusal> {
        let (age, span) = self.span_to_change(address, INVALID_STATE)?;
        // "in release also live count 0"
        if self.record.live == 0 {
            return Err(DAMAGED);
        }
        let mut block = self.record.blocks[age];
        let keeps_empty = self.record.pool[block.pool as usize].empty != 0;
        // "Used bits and last stop bit off, counts back down, window widened to take the span in, dirty on."
        self.free(&mut block, span.clone());
        self.record.live -= 1;
        self.set_stop(&block, span.end - 1, false);
        // "A block with used count 0 ... is removed if its pool already keeps an empty block or immediate release is
        // set, otherwise the empty count becomes 1."
        let is_removed = block.used == 0 && (keeps_empty || self.record.immediate_release);
        if block.used == 0 {
            empty(&mut block);
        }
        self.put_block(age, block);
        if is_removed {
            self.remove(age);
        }
        Ok(self.bytes(address, &span))
    }

    /// Units of a block are free again.
    fn free(&mut self, block: &mut Block, units: Units) {
        self.set_used(block, units.clone(), false);
        block.used -= units.end - units.start;
        block.start = block.start.min(units.start);
        block.end = block.end.max(units.end);
        block.flags |= DIRTY;
    }

    /// "A removed block's slot is cleared, later records move up, zeros behind."
    fn remove(&mut self, age: usize) {
        self.clear_slot(self.record.blocks[age].slot);
        let mut blocks = self.record.standing().to_vec();
        blocks.remove(age);
        self.record.set_blocks(&blocks);
    }

    /// "Shrink. Size 0 is a release", which the caller sees to.
    pub fn shrink(&mut self, address: u64, size: u64) -> Result<Bytes, Refusal> {
        let (age, span) = self.span_to_change(address, INVALID_ARGUMENT)?;
        // "units = new size over g, rounded up, exactly." Refusal 3: "shrink to more units than the span has"
        let units = size.div_ceil(self.record.granularity);
        if units > u64::from(span.end - span.start) {
            return Err(INVALID_STATE);
        }
        let kept = span.start..span.start + units as u32;
        // "Equal units change nothing."
        if kept.end != span.end {
            // "The tail's used bits and old stop bit go off, used counts fall, a stop bit goes on at the new last
            // unit, the window widens, dirty is on."
            let mut block = self.record.blocks[age];
            self.free(&mut block, kept.end..span.end);
            self.set_stop(&block, span.end - 1, false);
            self.set_stop(&block, kept.end - 1, true);
            self.put_block(age, block);
        }
        Ok(self.bytes(address, &kept))
    }

    // --------------------------------------------------------------------------------------------- Reset

    /// "Reset. Hard, or soft with immediate release: all blocks go. Soft: each pool keeps its oldest block, if any,
    /// slot cleared and record as at used count 0. The live count becomes 0."
    pub fn reset(&mut self, is_hard: bool) -> Result<(), Refusal> {
        self.check_shape()?;
        let standing = self.record.standing().to_vec();
        standing.iter().for_each(|block| self.clear_slot(block.slot));
        let mut kept: Vec<Block> = Vec::with_capacity(LIMIT);
        for mut block in standing {
            let is_oldest = !kept.iter().any(|older| older.pool == block.pool);
            if is_oldest && !is_hard && !self.record.immediate_release {
                empty(&mut block);
                kept.push(block);
            }
        }
        self.record.set_blocks(&kept);
        self.record.live = 0;
        Ok(())
    }
}

fn set_bit(map: &mut [u32], unit: u64, on: bool) {
    let (word, bit) = ((unit / 32) as usize, 1 << (unit % 32));
    if on { map[word] |= bit } else { map[word] &= !bit }
}

/// "A block with used count 0 gets the whole window, largest equal to its area, the empty flag, and dirty off"
fn empty(block: &mut Block) {
    (block.used, block.start, block.end, block.largest) = (0, 0, block.area, block.area);
    block.flags = EMPTY;
}
