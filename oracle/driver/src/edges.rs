//! Writes at the edges of a span, by the original's `copy_from_slice` and by the plain program's. The traces of filled mode
//! reach them here and there, as their writes go by the number of the call; here all are tried.

use crate::generate::small_setting;
use original::push_back::probe::Probe;
use original::trace::{Call, Create, Machine};
use original::util::virtual_memory;
use plain::filled::PATTERN;
use plain::filling::Lent;
use plain::{Allocator, Asked};

/// Both programs with three spans side by side, of which the middle one is written.
struct Both {
    machine: Machine<Probe>,
    allocator: Allocator,
    image: Vec<u8>,
    middle: u64,
}

impl Both {
    fn new(create: &Create, size: u64) -> Self {
        let mut machine = Machine::filled();
        machine.step(&Call::Create(*create));
        let Create { block_size, granularity, flags, slot_words, arena_base, arena_length } = *create;
        let asked = Asked { block_size, granularity, flags, slot_words, arena_base, arena_length };
        let allocator = Allocator::create(&asked).unwrap_or_else(|number| panic!("refused {number}"));
        let mut both = Both { machine, allocator, image: vec![0; arena_length as usize], middle: arena_base + size };
        for _ in 0..3 {
            both.machine.step(&Call::Alloc(size));
            let lent = &mut Lent { image: &mut both.image, pattern: PATTERN };
            both.allocator.alloc_filled(lent, size).unwrap_or_else(|number| panic!("refused {number}"));
        }
        both
    }

    /// Tries the write on both, and says what differs.
    fn write(&mut self, offset: u64, length: u64) -> Option<String> {
        let bytes: Vec<u8> = (0..length).map(|index| (offset.wrapping_add(7 * index) % 251) as u8).collect();
        let original = self.machine.write(self.middle, offset, &bytes).map(|answer| answer.to_string());
        let plain = match self.allocator.copy_from_slice(&mut self.image, self.middle, offset, &bytes) {
            Ok((address, size)) => format!("wrote {address} {size}"),
            Err(number) => format!("refused {number}"),
        };
        let what = format!("a write of {length} bytes from offset {offset} at {}", self.middle);
        if original.as_ref() != Some(&plain) {
            return Some(format!("{what}: the original {original:?}, the plain program {plain:?}"));
        }
        (image() != self.image).then(|| format!("{what}: the images differ"))
    }
}

/// The original's image, byte by byte.
fn image() -> Vec<u8> {
    virtual_memory::with_image(|words| words.iter().flat_map(|word| word.get().to_ne_bytes()).collect())
}

/// Tries all edges of spans of one to four units, at each granularity: how many writes, and what differs.
pub fn compare_edges() -> (usize, Vec<String>) {
    let (mut writes, mut differences) = (0, Vec::new());
    for number in 0..3 {
        let create = small_setting(number, 2);
        for size in [1, 2, 3, 4].map(|units| units * u64::from(create.granularity)) {
            let mut both = Both::new(&create, size);
            let ends = [0, 1, size - 1, size, size + 1];
            for offset in ends.into_iter().chain([1 << 32, 1 << 63, size.wrapping_neg(), u64::MAX - 1, u64::MAX]) {
                for length in ends.into_iter().chain([2, size - 2]) {
                    writes += 1;
                    differences.extend(both.write(offset, length));
                }
            }
        }
    }
    (writes, differences)
}
