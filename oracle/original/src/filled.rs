//! Filled mode (oracle/README.md): the original fills unused memory, a write is tried after each call, and the image's hash
//! is written behind it.

use crate::allocator::{Allocator, BlockView};
use crate::trace::{Answer, Call, Machine, Step, run_on};
use crate::util::virtual_memory;
use std::fmt::Write;

/// The bytes 44 33 22 11: the original fills by words, in the machine's order of bytes.
pub const PATTERN: u32 = 0x1122_3344_u32.to_le();

/// The longest arena that has an image. A longer one cannot be asked of the original, whose memory is its arena.
pub const IMAGE_BYTES: u64 = 1 << 20;

/// The write that is tried after call number `k`.
struct Attempt {
    address: u64,
    offset: u64,
    slice: Vec<u8>,
}

impl Attempt {
    fn after(k: u64, step: &Step) -> Self {
        // Some pass 64 bits, and some are far from the span's start.
        let offset = match k % 16 {
            0 => u64::MAX - k % 3,
            8 => k.wrapping_mul(1021) % 131_072,
            _ => k.wrapping_mul(7) % 60,
        };
        // Those of odd k end with a span of 64 bytes, or one byte behind a span of 64, 128 or 256.
        let length = match k % 8 {
            1 => 64 - offset,
            3 => 65 - offset,
            5 => 129 - offset,
            7 => 257 - offset,
            _ => k.wrapping_mul(5) % 149,
        };
        let byte = |j: u64| k.wrapping_mul(13).wrapping_add(j.wrapping_mul(31)) as u8;
        Attempt { address: address(step), offset, slice: (0..length).map(byte).collect() }
    }
}

/// The address in the answer, else the call's own, else 0.
fn address(step: &Step) -> u64 {
    match (step.answer, step.call) {
        (Answer::Span(address, _) | Answer::Released(address, _) | Answer::Shrunk(address, _), _) => address,
        (_, Call::Release(address) | Call::Shrink(address, _) | Call::Query(address)) => address,
        _ => 0,
    }
}

/// Tries the write after call number `k`, and adds the lines of both: none before the first good create.
pub fn write_lines<A: Allocator>(k: u64, step: &Step, machine: &mut Machine<A>, lines: &mut String) {
    let attempt = Attempt::after(k, step);
    if let Some(answer) = machine.write(attempt.address, attempt.offset, &attempt.slice) {
        let _ = writeln!(lines, "  {answer}\n  image {}", image_hash());
    }
}

/// h = (h * 31 + byte) mod 2^32 over the bytes of the image, from h = 0.
fn image_hash() -> u32 {
    virtual_memory::with_image(|words| words.iter().fold(0, |hash, word| hash_word(hash, word.get())))
}

/// Four steps of the hash in one, which is what the image's length asks for.
fn hash_word(hash: u32, word: u32) -> u32 {
    let [a, b, c, d] = word.to_ne_bytes().map(u32::from);
    hash.wrapping_mul(31 * 31 * 31 * 31).wrapping_add(a * (31 * 31 * 31) + b * (31 * 31) + c * 31 + d)
}

/// Fills what a soft reset left in the blocks that it kept, and says how many bytes that were. They must lie where
/// docs/DIFFERENCES.md says: in the last unit of a span, which has a stop bit in the map before.
pub fn mend(before: &[BlockView], kept: &[BlockView]) -> u64 {
    let stop = |base: u64| &before.iter().find(|block| block.base == base).expect("a reset makes no block").stop;
    kept.iter().map(|block| mend_block(block, stop(block.base))).sum()
}

fn mend_block(block: &BlockView, stop: &[u32]) -> u64 {
    let unit_bytes = block.size as usize / block.area_size as usize;
    virtual_memory::with_block(block.base, block.size, |words| {
        let mut mended = 0;
        for (index, word) in words.iter().enumerate().filter(|(_, word)| word.get() != PATTERN) {
            let unit = index * size_of::<u32>() / unit_bytes;
            assert!(
                stop[unit / 32] >> (unit % 32) & 1 == 1,
                "a soft reset left unit {unit} of the block at {} unfilled, which is no span's last unit",
                block.base
            );
            mended += (word.get() ^ PATTERN).to_ne_bytes().iter().filter(|byte| **byte != 0).count() as u64;
            word.set(PATTERN);
        }
        mended
    })
}

/// A trace in filled mode, as it went.
pub struct Filled {
    pub lines: String,
    /// Bytes that soft resets left unfilled.
    pub mended: u64,
}

/// Runs a whole trace in filled mode. `after` sees each call.
pub fn run<A: Allocator>(bytes: &[u8], mut after: impl FnMut(&Step)) -> Filled {
    let mut machine = Machine::<A>::filled();
    let mut k = 0;
    let lines = run_on(&mut machine, bytes, |step, machine, lines| {
        k += 1;
        after(step);
        if !step.ends() {
            write_lines(k, step, machine, lines);
        }
    });
    Filled { lines, mended: machine.mended }
}
