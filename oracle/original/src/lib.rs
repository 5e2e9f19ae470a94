//! The original allocator, compiled from docs/src, over a modelled arena.
//!
//! `jit_allocator.rs` stands here twice: as the oracle (`push_back`, one word changed by build.rs) and as
//! published (`push_front`). `util/mod.rs` goes in byte for byte. The list and the tree are the real
//! intrusive-collections. Imitated are `virtual_memory` (src/util/virtual_memory.rs) and what
//! docs/01-scope.md adds around the allocator: creation's limits and the trace (src/trace.rs).

extern crate alloc;

pub mod allocator;
pub mod filled;
pub mod trace;

/// The errors that `jit_allocator.rs` names, and the one that a failing `mmap` gives.
#[derive(Clone, Copy, Debug, PartialEq, Eq)]
pub enum AsmError {
    InvalidArgument,
    TooLarge,
    InvalidState,
    OutOfMemory,
}

/// `util/mod.rs` with its feature `jit` off: so its own `virtual_memory` stays out, and the stub stands in.
pub mod util {
    include!("../../../docs/src/src/util/mod.rs");

    pub mod virtual_memory;
}

/// The oracle: a new block goes to the back of its pool's list.
#[allow(dead_code)]
pub mod push_back {
    include!(concat!(env!("OUT_DIR"), "/jit_allocator.rs"));

    pub mod probe {
        include!("probe.rs");
    }
}

/// The text as published: a new block goes to the front.
#[allow(dead_code)]
pub mod push_front {
    include!("../../../docs/src/src/core/jit_allocator.rs");

    pub mod probe {
        include!("probe.rs");
    }
}
