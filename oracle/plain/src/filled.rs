//! Filled mode (oracle/README.md): a trace by the calls with an image, with a write and the image's hash after each call.

use crate::filling::Lent;
use crate::trace::{Machine, Record, answer, good_record};
use crate::{Allocator, Refusal};

/// The bytes 44 33 22 11, little-endian.
pub const PATTERN: u32 = 0x1122_3344;

/// A longer arena gets an image of this length, which is then not its own.
const IMAGE_BYTES: u64 = 1_048_576;

/// What a trace is played on, with the image of the arena in force.
#[derive(Default)]
struct Filled {
    machine: Machine,
    image: Vec<u8>,
    /// The records so far.
    played: u64,
}

impl Filled {
    /// Plays a record and tries the write after it: all their lines.
    fn play(&mut self, record: &Record<'_>) -> String {
        self.played += 1;
        let line = match (record.kind, &mut self.machine.allocator) {
            (1, _) => self.create(record),
            // Before the first good create there is no image to lend, and the call is refused 5. A query is lent none.
            (_, None) | (5, _) => self.machine.play_record(record),
            (_, Some(allocator)) => call(allocator, &mut self.image, record),
        };
        let more = self.write(record, &line);
        line + "\n" + &more
    }

    /// The image is all zero bytes at each good create.
    fn create(&mut self, record: &Record<'_>) -> String {
        let line = self.machine.play_record(record);
        if line.starts_with("created")
            && let Some(allocator) = &self.machine.allocator
        {
            self.image = vec![0; allocator.arena_length.min(IMAGE_BYTES) as usize];
        }
        line
    }

    /// The write after a record with its line, and the image's hash; nothing where no state is in force.
    fn write(&mut self, record: &Record<'_>, line: &str) -> String {
        let Some(allocator) = &self.machine.allocator else {
            return String::new();
        };
        let k = self.played;
        let address = address_in(line).or_else(|| address_of(record)).unwrap_or(0);
        let offset = match k % 16 {
            0 => u64::MAX - k % 3,
            8 => k * 1021 % 131_072,
            _ => k * 7 % 60,
        };
        // where O + n ends, or 0 where n goes by itself
        let end = [0, 64, 0, 65, 0, 129, 0, 257][k as usize % 8];
        let length = if end > 0 { end - offset } else { k * 5 % 149 };
        let bytes: Vec<u8> = (0..length).map(|j| ((k * 13 + j * 31) % 256) as u8).collect();
        let wrote = answer("wrote", allocator.copy_from_slice(&mut self.image, address, offset, &bytes));
        format!("  {wrote}\n  image {}\n", hash(&self.image))
    }
}

/// A call that is lent the image.
fn call(allocator: &mut Allocator, image: &mut [u8], record: &Record<'_>) -> String {
    let lent = &mut Lent { image, pattern: PATTERN };
    let argument = |index| record.argument(index);
    match record.kind {
        2 => answer("span", allocator.alloc_filled(lent, argument(0))),
        3 => answer("released", allocator.release_filled(lent, argument(0))),
        4 => {
            // "a shrink to 0 as a release"
            let word = if argument(1) == 0 { "released" } else { "shrunk" };
            answer(word, allocator.shrink_filled(lent, argument(0), argument(1)))
        }
        6 => reset(allocator.soft_reset_filled(lent)),
        7 => reset(allocator.hard_reset_filled(lent)),
        _ => unreachable!("a create and a query are lent nothing, and there is no other kind"),
    }
}

fn reset(result: Result<(), Refusal>) -> String {
    match result {
        Ok(()) => "reset".to_string(),
        Err(refusal) => format!("refused {refusal}"),
    }
}

/// The address in an answer's line, if it has one.
fn address_in(line: &str) -> Option<u64> {
    let (word, numbers) = line.split_once(' ')?;
    let address = numbers.split(' ').next()?;
    if ["span", "released", "shrunk"].contains(&word) { address.parse().ok() } else { None }
}

/// The call's own address, if it has one: that of a release, a shrink or a query.
fn address_of(record: &Record<'_>) -> Option<u64> {
    if [3, 4, 5].contains(&record.kind) { Some(record.argument(0)) } else { None }
}

/// h = (h * 31 + byte) mod 2^32 over the bytes, from h = 0. An image has whole fours, and four steps at once take a
/// quarter of the time.
fn hash(image: &[u8]) -> u32 {
    let step = |hash: u32, four: &[u8]| {
        let sum = four.iter().fold(0, |sum, byte| sum * 31 + u32::from(*byte));
        hash.wrapping_mul(31 * 31 * 31 * 31).wrapping_add(sum)
    };
    image.chunks_exact(4).fold(0, step)
}

/// Plays a whole trace in filled mode.
pub fn run(bytes: &[u8]) -> String {
    let mut filled = Filled::default();
    let mut lines = String::new();
    let mut offset = 0;
    while offset < bytes.len() {
        let Some(record) = good_record(&bytes[offset..]) else {
            return lines + &format!("bad {offset}\n");
        };
        lines += &filled.play(&record);
        offset += 4 + record.payload.len();
    }
    lines + &filled.machine.end() + "\n"
}
