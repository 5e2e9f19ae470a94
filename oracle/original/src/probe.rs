// Included as a child module of each text of `jit_allocator.rs`, where private fields may be read.

use super::{BitVectorRangeIterator, JitAllocator, JitAllocatorOptions, JitAllocatorPool, ResetPolicy, Span};
use crate::AsmError;
use crate::allocator::{Allocator, BlockView, Bytes, InForce, Options, PoolView};
use crate::util::virtual_memory;

pub struct Probe(Box<JitAllocator>);

impl Probe {
    fn pool(&self, index: usize) -> &JitAllocatorPool {
        // SAFETY: the allocator owns its pools, and `&self` keeps it from changing.
        unsafe { &*self.0.pools[index] }
    }
}

/// The runs that the walker yields over a window, with a hint; at most `limit` of them.
pub fn runs(used: &[u32], start: usize, end: usize, hint: u32, limit: usize) -> Vec<(u32, u32)> {
    let mut walker = BitVectorRangeIterator::<0>::new(used, used.len(), start, end);
    core::iter::from_fn(|| walker.next_range(hint)).map(|run| (run.start, run.end)).take(limit).collect()
}

/// A span at any address: `shrink` reads nothing else of it.
fn span_at(address: u64) -> Span {
    Span {
        rx: address as *const u8,
        rw: address as *mut u8,
        size: 0,
        block: core::ptr::null_mut(),
        icache_clean: true,
    }
}

fn bytes(span: Span) -> Bytes {
    (span.rx() as u64, span.size() as u64)
}

impl Allocator for Probe {
    fn new(options: &Options) -> Self {
        Probe(JitAllocator::new(JitAllocatorOptions {
            // The stub has memory for the second mapping alone.
            use_dual_mapping: options.fill.is_some(),
            use_multiple_pools: options.multiple_pools,
            fill_unused_memory: options.fill.is_some(),
            immediate_release: options.immediate_release,
            custom_fill_pattern: options.fill,
            block_size: options.block_size,
            granularity: options.granularity,
        }))
    }

    fn in_force(&self) -> InForce {
        InForce {
            block_size: self.0.block_size as u64,
            granularity: self.0.granulariy as u64,
            pools: self.0.pools.len(),
        }
    }

    fn alloc(&mut self, size: u64) -> Result<Bytes, AsmError> {
        self.0.alloc(size as usize).map(bytes)
    }

    fn release(&mut self, address: u64) -> Result<Bytes, AsmError> {
        let before = self.query(address);
        // SAFETY: the call tests its address itself, and fills nothing but a span in a block that stands.
        unsafe { self.0.release(address as *const u8)? };
        before
    }

    fn shrink(&mut self, address: u64, size: u64) -> Result<Bytes, AsmError> {
        let mut span = span_at(address);
        // SAFETY: as in `release`.
        unsafe { self.0.shrink(&mut span, size as usize)? };
        Ok(bytes(span))
    }

    fn query(&self, address: u64) -> Result<Bytes, AsmError> {
        self.0.query(address as *const u8).map(bytes)
    }

    fn reset(&mut self, hard: bool) {
        let policy = if hard { ResetPolicy::Hard } else { ResetPolicy::Soft };
        // SAFETY: no code runs from these numbers.
        unsafe { self.0.reset(policy) };
    }

    fn copy_from_slice(&mut self, address: u64, offset: u64, slice: &[u8]) -> Result<Bytes, AsmError> {
        let mut span = self.0.query(address as *const u8)?;
        // SAFETY: the span was just answered, and the call tests offset and length itself.
        unsafe { self.0.copy_from_slice(&mut span, offset as usize, slice)? };
        Ok(bytes(span))
    }

    fn live(&self) -> u64 {
        self.0.allocation_count as u64
    }

    fn pools(&self) -> Vec<PoolView> {
        let view = |index| {
            let pool = self.pool(index);
            PoolView {
                granularity: pool.granularity as u64,
                block_count: pool.block_count as u64,
                empty_block_count: pool.empty_block_count as u64,
                total_area_size: pool.total_area_size as u64,
                total_area_used: pool.total_area_used as u64,
            }
        };
        (0..self.0.pools.len()).map(view).collect()
    }

    fn blocks(&self) -> Vec<BlockView> {
        let standing = virtual_memory::standing();
        let place = |base: u64| standing.iter().find(|place| place.base == base).expect("a block stands in the arena");
        let mut blocks = Vec::new();
        for index in 0..self.0.pools.len() {
            for block in self.pool(index).blocks.iter() {
                let base = block.rx_ptr() as u64;
                blocks.push(BlockView {
                    base,
                    size: block.block_size as u64,
                    pool: index,
                    slot: place(base).slot,
                    flags: block.flags(),
                    area_size: block.area_size(),
                    area_used: block.area_used(),
                    search_start: block.search_start(),
                    search_end: block.search_end(),
                    largest_unused_area: block.largest_unused_area(),
                    used: block.used_bitvector().clone(),
                    stop: block.stop_bitvector().clone(),
                });
            }
        }
        blocks.sort_by_key(|block| place(block.base).serial);
        blocks
    }
}
