//! "Filling": the calls with a byte image of the arena lent to them, and a write into a span.

use crate::{Allocator, Block, Bytes, INVALID_ARGUMENT, Refusal};

/// "a byte image of the whole arena, whose first byte is the arena's, and a 32-bit pattern"
pub struct Lent<'a> {
    pub image: &'a mut [u8],
    pub pattern: u32,
}

impl Allocator {
    /// "An image whose length isn't the arena's is refusal 1, checked straight after 5."
    fn check_image(&self, image: &[u8]) -> Result<(), Refusal> {
        if image.len() as u64 == self.arena_length { Ok(()) } else { Err(INVALID_ARGUMENT) }
    }

    /// "Otherwise the call is the call without an image, and these bytes are filled": "a new block's at its making".
    pub fn alloc_filled(&mut self, lent: &mut Lent<'_>, size: u64) -> Result<Bytes, Refusal> {
        self.check_image(lent.image)?;
        let blocks = self.blocks.len();
        let span = self.alloc(size)?;
        // The new block is the newest.
        for block in &self.blocks[blocks..] {
            self.fill_block(lent, block);
        }
        Ok(span)
    }

    /// "those that a release or a shrink frees", also where the block goes with them
    pub fn release_filled(&mut self, lent: &mut Lent<'_>, address: u64) -> Result<Bytes, Refusal> {
        self.check_image(lent.image)?;
        let (address, size) = self.release(address)?;
        self.fill(lent, address, address + size);
        Ok((address, size))
    }

    /// "Size 0 is a release."
    pub fn shrink_filled(&mut self, lent: &mut Lent<'_>, address: u64, size: u64) -> Result<Bytes, Refusal> {
        if size == 0 {
            return self.release_filled(lent, address);
        }
        self.check_image(lent.image)?;
        let before = self.query(address);
        let (address, left) = self.shrink(address, size)?;
        let (_, had) = before.expect("what can be shrunk is a span");
        self.fill(lent, address + left, address + had);
        Ok((address, left))
    }

    /// "on soft reset all units of each kept block"
    pub fn soft_reset_filled(&mut self, lent: &mut Lent<'_>) -> Result<(), Refusal> {
        self.check_image(lent.image)?;
        self.soft_reset();
        for block in &self.blocks {
            self.fill_block(lent, block);
        }
        Ok(())
    }

    /// "a reset fills nothing in blocks that go"
    pub fn hard_reset_filled(&mut self, lent: &mut Lent<'_>) -> Result<(), Refusal> {
        self.check_image(lent.image)?;
        self.hard_reset();
        Ok(())
    }

    /// "`copy_from_slice` writes bytes into a span from an offset on". "It answers as the query does and writes no other
    /// byte; an empty write changes nothing."
    pub fn copy_from_slice(&self, image: &mut [u8], address: u64, offset: u64, bytes: &[u8]) -> Result<Bytes, Refusal> {
        // "the image's length straight after 5"
        self.check_image(image)?;
        // "the address is looked up as in a query and refused as there"
        let (start, size) = self.query(address)?;
        // "then it is refused (1) if offset plus length passes the span or 64 bits"
        if u128::from(offset) + bytes.len() as u128 > u128::from(size) {
            return Err(INVALID_ARGUMENT);
        }
        for (index, byte) in bytes.iter().enumerate() {
            image[(start - self.arena_base + offset) as usize + index] = *byte;
        }
        Ok((start, size))
    }

    fn fill_block(&self, lent: &mut Lent<'_>, block: &Block) {
        self.fill(lent, block.base, block.base + block.size);
    }

    /// "filled by the pattern, little-endian, from their first one on": the bytes from one address up to another
    fn fill(&self, lent: &mut Lent<'_>, from: u64, to: u64) {
        for address in from..to {
            lent.image[(address - self.arena_base) as usize] = (lent.pattern >> ((address - from) % 4 * 8)) as u8;
        }
    }
}
