//! The record of an allocator, as numbers of any value.

/// "The two flag numbers"
pub const EMPTY: u32 = 1;
pub const DIRTY: u32 = 2;

/// The most blocks that a table holds.
pub const LIMIT: usize = 64;

#[derive(Clone, Copy, Default, PartialEq)]
pub struct Block {
    pub base: u64,
    pub size: u64,
    pub pool: u64,
    pub slot: u64,
    pub flags: u32,
    pub area: u32,
    pub used: u32,
    /// The window, and the largest-run field.
    pub start: u32,
    pub end: u32,
    pub largest: u32,
}

/// A pool's unit, and its stored sums.
#[derive(Clone, Copy, Default, PartialEq)]
pub struct Pool {
    pub granularity: u64,
    pub blocks: u32,
    pub empty: u32,
    pub area: u32,
    pub used: u32,
}

#[derive(Clone)]
pub struct Record {
    pub base_size: u64,
    pub granularity: u64,
    pub pools: u64,
    pub immediate_release: bool,
    pub slot_words: u64,
    pub slots: u64,
    pub arena_base: u64,
    pub arena_length: u64,
    pub live: u64,
    pub count: u64,
    /// By age.
    pub blocks: [Block; LIMIT],
    /// Ages by rising base.
    pub order: [u64; LIMIT],
    pub pool: [Pool; 3],
}

impl Record {
    /// "A refused creation hands back a record of zeros"
    pub fn zeros() -> Record {
        Record {
            base_size: 0,
            granularity: 0,
            pools: 0,
            immediate_release: false,
            slot_words: 0,
            slots: 0,
            arena_base: 0,
            arena_length: 0,
            live: 0,
            count: 0,
            blocks: [Block::default(); LIMIT],
            order: [0; LIMIT],
            pool: [Pool::default(); 3],
        }
    }

    /// The standing blocks: as many as are counted and there is room for.
    pub fn standing(&self) -> &[Block] {
        &self.blocks[..self.count.min(LIMIT as u64) as usize]
    }

    /// The table anew: these blocks by age, their ages by rising base, "zeros behind", and the sums of each pool.
    pub fn set_blocks(&mut self, blocks: &[Block]) {
        self.count = blocks.len() as u64;
        self.blocks = [Block::default(); LIMIT];
        self.blocks[..blocks.len()].copy_from_slice(blocks);
        let mut ages: Vec<usize> = (0..blocks.len()).collect();
        ages.sort_by_key(|age| blocks[*age].base);
        self.order = [0; LIMIT];
        for (place, age) in ages.into_iter().enumerate() {
            self.order[place] = age as u64;
        }
        for pool in 0..3 {
            self.pool[pool] = sums(self.granularity, blocks, pool);
        }
    }
}

/// What a pool's record has to hold: the sums over its blocks.
pub fn sums(granularity: u64, blocks: &[Block], pool: usize) -> Pool {
    let mut sums = Pool { granularity, ..Pool::default() };
    for block in blocks.iter().filter(|block| block.pool == pool as u64) {
        sums.blocks += 1;
        sums.empty += block.flags & EMPTY;
        sums.area += block.area;
        sums.used += block.used;
    }
    sums
}
