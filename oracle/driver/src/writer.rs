//! Writes a trace call by call. Each call is also made on the original, so that the next ones can aim at
//! addresses that mean something.

use original::push_back::probe::Probe;
use original::trace::{Answer, Call, Create, Machine};
use original::util::virtual_memory;

/// A call's record, as docs/01-scope.md has it.
pub fn record(call: &Call) -> Vec<u8> {
    let (kind, payload): (u16, Vec<u8>) = match call {
        Call::Create(c) => {
            let words = [c.block_size, c.granularity, c.flags, c.slot_words].map(u32::to_le_bytes).concat();
            let longs = [c.arena_base, c.arena_length].map(u64::to_le_bytes).concat();
            (1, [words, longs].concat())
        }
        Call::Alloc(size) => (2, size.to_le_bytes().to_vec()),
        Call::Release(address) => (3, address.to_le_bytes().to_vec()),
        Call::Shrink(address, size) => (4, [address.to_le_bytes(), size.to_le_bytes()].concat()),
        Call::Query(address) => (5, address.to_le_bytes().to_vec()),
        Call::SoftReset => (6, Vec::new()),
        Call::HardReset => (7, Vec::new()),
    };
    raw_record(kind, &payload)
}

/// A record of any kind and payload.
pub fn raw_record(kind: u16, payload: &[u8]) -> Vec<u8> {
    [&(payload.len() as u16).to_le_bytes()[..], &kind.to_le_bytes()[..], payload].concat()
}

/// A call's text form, as `traces/records` reads it.
pub fn text(call: &Call) -> String {
    match call {
        Call::Create(c) => format!(
            "create {} {} {} {} {} {}",
            c.block_size, c.granularity, c.flags, c.slot_words, c.arena_base, c.arena_length
        ),
        Call::Alloc(size) => format!("alloc {size}"),
        Call::Release(address) => format!("release {address}"),
        Call::Shrink(address, size) => format!("shrink {address} {size}"),
        Call::Query(address) => format!("query {address}"),
        Call::SoftReset => "soft_reset".to_string(),
        Call::HardReset => "hard_reset".to_string(),
    }
}

#[derive(Default)]
pub struct Writer {
    bytes: Vec<u8>,
    machine: Machine<Probe>,
    /// The create in force, as asked, and its granularity as in force.
    pub create: Option<Create>,
    pub granularity: u64,
    /// The live spans, address and size, in order of allocation.
    pub live: Vec<(u64, u64)>,
    /// The address last freed.
    pub freed: u64,
}

impl Writer {
    pub fn call(&mut self, call: Call) -> Answer {
        self.bytes.extend(record(&call));
        let answer = self.machine.step(&call);
        self.enter(&call, answer);
        answer
    }

    /// Keeps the live spans, from the call and its answer alone.
    fn enter(&mut self, call: &Call, answer: Answer) {
        match (call, answer) {
            (Call::Create(create), Answer::Created(_, granularity, _)) => {
                self.create = Some(*create);
                self.granularity = granularity;
                self.live.clear();
            }
            (Call::Alloc(_), Answer::Span(address, size)) => self.live.push((address, size)),
            (_, Answer::Released(address, _)) => {
                self.live.retain(|span| span.0 != address);
                self.freed = address;
            }
            (_, Answer::Shrunk(address, size)) => {
                for span in self.live.iter_mut().filter(|span| span.0 == address) {
                    span.1 = size;
                }
            }
            (_, Answer::Reset) => self.live.clear(),
            _ => {}
        }
    }

    /// Base and size of the standing blocks, oldest first.
    pub fn blocks(&self) -> Vec<(u64, u64)> {
        if self.create.is_none() {
            return Vec::new();
        }
        virtual_memory::standing().iter().map(|block| (block.base, block.size)).collect()
    }

    /// Bytes that are no record, or only the head of one.
    pub fn raw(&mut self, bytes: &[u8]) {
        self.bytes.extend(bytes);
    }

    pub fn bytes(self) -> Vec<u8> {
        self.bytes
    }
}
