//! A stub for the original's `virtual_memory`: hands out addresses by the arena rule of docs/01-scope.md.
//!
//! Addresses are numbers; nothing is mapped, and without filling nothing is dereferenced. With filling the original
//! maps twice: to run stays a number, to write is memory, in an image of the arena. The stub also keeps each block's slot
//! and order of making, which the original does not know.

use crate::AsmError;
use core::cell::{Cell, RefCell};

/// "The lowest multiple of 65,536": also the page granularity that the original is told.
pub const PAGE_GRANULARITY: u64 = 65_536;

pub struct Info {
    pub page_size: u32,
    pub page_granularity: u32,
}

pub struct MemoryFlags(pub u32);

impl MemoryFlags {
    pub const ACCESS_RWX: u32 = 7;
}

impl From<u32> for MemoryFlags {
    fn from(flags: u32) -> Self {
        MemoryFlags(flags)
    }
}

pub struct DualMapping {
    pub rx: *const u8,
    pub rw: *mut u8,
}

/// A block that stands in the arena.
#[derive(Clone, Copy, Debug)]
pub struct Standing {
    pub base: u64,
    pub size: u64,
    pub slot: u32,
    /// Counts the blocks made since the arena was opened: orders them by age over all pools.
    pub serial: u64,
}

/// The bytes of an arena. Words, since the original fills by words; cells, since it writes through pointers.
pub type Image = Box<[Cell<u32>]>;

#[derive(Default)]
pub struct Arena {
    pub base: u64,
    pub length: u64,
    pub granularity: u64,
    pub slot_words: u64,
    pub slots: u32,
    standing: Vec<Standing>,
    made: u64,
    /// All zero at first; empty without filling.
    image: Image,
}

impl Arena {
    pub fn new(base: u64, length: u64, granularity: u64, slot_words: u64, slots: u32) -> Self {
        Arena { base, length, granularity, slot_words, slots, standing: Vec::new(), made: 0, image: Image::default() }
    }

    /// The same arena with memory behind its addresses.
    pub fn with_image(self) -> Self {
        let image = vec![Cell::new(0); self.length as usize / size_of::<u32>()].into();
        Arena { image, ..self }
    }

    /// The image from an address on.
    fn image_from(&self, address: u64) -> &[Cell<u32>] {
        &self.image[(address - self.base) as usize / size_of::<u32>()..]
    }

    /// "Refusal 4 exactly if there is no such place, no free slot, or its words exceed W."
    fn take(&mut self, size: u64) -> Option<u64> {
        let words = size.div_ceil(self.granularity).div_ceil(32);
        if words > self.slot_words {
            return None;
        }
        let slot = self.lowest_free_slot()?;
        let base = self.lowest_place(size)?;
        self.standing.push(Standing { base, size, slot, serial: self.made });
        self.made += 1;
        Some(base)
    }

    fn lowest_free_slot(&self) -> Option<u32> {
        (0..self.slots).find(|slot| self.standing.iter().all(|block| block.slot != *slot))
    }

    /// The lowest place starts the arena or follows a standing block, so only those are tried.
    fn lowest_place(&self, size: u64) -> Option<u64> {
        let ends = self.standing.iter().map(|block| (block.base + block.size).next_multiple_of(PAGE_GRANULARITY));
        core::iter::once(self.base).chain(ends).filter(|place| self.is_free(*place, size)).min()
    }

    fn is_free(&self, place: u64, size: u64) -> bool {
        place >= self.base
            && place + size <= self.base + self.length
            && self.standing.iter().all(|block| place + size <= block.base || block.base + block.size <= place)
    }

    fn give_back(&mut self, base: u64, size: u64) {
        let index = self.standing.iter().position(|block| block.base == base && block.size == size);
        self.standing.remove(index.expect("the original releases only blocks that stand"));
    }
}

thread_local! {
    /// The original calls free functions, so the arena in force belongs to the thread.
    static ARENA: RefCell<Arena> = RefCell::default();
}

/// Opens a new arena. The allocator over the old one must be gone.
pub fn open(arena: Arena) {
    ARENA.with(|current| *current.borrow_mut() = arena);
}

/// The standing blocks, oldest first.
pub fn standing() -> Vec<Standing> {
    ARENA.with(|arena| arena.borrow().standing.clone())
}

/// Shows the words of the image in force.
pub fn with_image<T>(see: impl FnOnce(&[Cell<u32>]) -> T) -> T {
    ARENA.with(|arena| see(&arena.borrow().image))
}

/// Shows the words of a block.
pub fn with_block<T>(base: u64, size: u64, see: impl FnOnce(&[Cell<u32>]) -> T) -> T {
    ARENA.with(|arena| see(&arena.borrow().image_from(base)[..size as usize / size_of::<u32>()]))
}

pub fn info() -> Info {
    Info { page_size: 4096, page_granularity: PAGE_GRANULARITY as u32 }
}

pub const fn has_map_jit_support() -> bool {
    false
}

pub fn alloc(size: usize, _flags: MemoryFlags) -> Result<*mut u8, AsmError> {
    ARENA.with(|arena| arena.borrow_mut().take(size as u64)).map(|base| base as *mut u8).ok_or(AsmError::OutOfMemory)
}

/// # Safety
///
/// None needed: the address is a number.
pub unsafe fn release(address: *mut u8, size: usize) -> Result<(), AsmError> {
    ARENA.with(|arena| arena.borrow_mut().give_back(address as u64, size as u64));
    Ok(())
}

pub fn with_jit_write_access<T>(write: impl FnOnce() -> T) -> T {
    write()
}

// What follows is called with filling alone.

pub fn alloc_dual_mapping(size: usize, _flags: MemoryFlags) -> Result<DualMapping, AsmError> {
    ARENA.with(|arena| {
        let mut arena = arena.borrow_mut();
        let base = arena.take(size as u64).ok_or(AsmError::OutOfMemory)?;
        Ok(DualMapping { rx: base as *const u8, rw: arena.image_from(base).as_ptr() as *mut u8 })
    })
}

/// The image keeps its bytes: a block that is made at this place again finds them.
pub fn release_dual_mapping(mapping: &mut DualMapping, size: usize) -> Result<(), AsmError> {
    ARENA.with(|arena| arena.borrow_mut().give_back(mapping.rx as u64, size as u64));
    Ok(())
}

/// # Safety
///
/// None needed: nothing runs from these addresses, and nothing is flushed.
pub unsafe fn flush_instruction_cache(_address: *const u8, _size: usize) -> Result<(), AsmError> {
    Ok(())
}
