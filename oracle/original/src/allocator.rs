//! What a trace needs of the allocator: the calls of docs/01-scope.md, with addresses as numbers, and views
//! of its private records. src/probe.rs implements it for both texts of `jit_allocator.rs`.

use crate::AsmError;

/// A span, or what is left of it: address and bytes.
pub type Bytes = (u64, u64);

pub struct Options {
    pub block_size: u32,
    pub granularity: u32,
    pub multiple_pools: bool,
    pub immediate_release: bool,
    /// The pattern, where unused memory is filled.
    pub fill: Option<u32>,
}

pub struct InForce {
    pub block_size: u64,
    pub granularity: u64,
    pub pools: usize,
}

#[derive(Clone, Debug)]
pub struct PoolView {
    pub granularity: u64,
    pub block_count: u64,
    pub empty_block_count: u64,
    pub total_area_size: u64,
    pub total_area_used: u64,
}

#[derive(Clone, Debug)]
pub struct BlockView {
    pub base: u64,
    pub size: u64,
    pub pool: usize,
    pub slot: u32,
    pub flags: u32,
    pub area_size: u32,
    pub area_used: u32,
    pub search_start: u32,
    pub search_end: u32,
    pub largest_unused_area: u32,
    pub used: Vec<u32>,
    pub stop: Vec<u32>,
}

pub trait Allocator {
    fn new(options: &Options) -> Self;
    fn in_force(&self) -> InForce;

    fn alloc(&mut self, size: u64) -> Result<Bytes, AsmError>;
    /// The original answers nothing: the freed bytes are asked for by a query before.
    fn release(&mut self, address: u64) -> Result<Bytes, AsmError>;
    fn shrink(&mut self, address: u64, size: u64) -> Result<Bytes, AsmError>;
    fn query(&self, address: u64) -> Result<Bytes, AsmError>;
    fn reset(&mut self, hard: bool);
    /// The original takes a span: it is asked for by a query before.
    fn copy_from_slice(&mut self, address: u64, offset: u64, slice: &[u8]) -> Result<Bytes, AsmError>;

    fn live(&self) -> u64;
    fn pools(&self) -> Vec<PoolView>;
    /// All blocks, in order of age over all pools.
    fn blocks(&self) -> Vec<BlockView>;
}
