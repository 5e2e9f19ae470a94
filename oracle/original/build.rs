//! Makes the oracle's text of `jit_allocator.rs`: the original with one word changed.
//!
//! docs/01-scope.md: "we complete the oracle with a new block at the back of its pool's list". The text
//! in docs/src puts it at the front, so `push_front` becomes `push_back`, in one line and in no other.

use std::{env, fs, path::Path};

const SOURCE: &str = "../../docs/src/src/core/jit_allocator.rs";
const OLD: &str = "pool.blocks.push_front(UnsafeRef::from_raw(block));";
const NEW: &str = "pool.blocks.push_back(UnsafeRef::from_raw(block));";

fn main() {
    println!("cargo::rerun-if-changed=build.rs");
    println!("cargo::rerun-if-changed={SOURCE}");

    let original = match fs::read_to_string(SOURCE) {
        Ok(text) => text,
        Err(error) => return refuse(&format!("cannot read docs/src/src/core/jit_allocator.rs: {error}")),
    };
    let patched = original.replace(OLD, NEW);
    let changed = changed_lines(&original, &patched);
    if changed != 1 {
        return refuse(&format!(
            "docs/src/src/core/jit_allocator.rs: the change from push_front to push_back must touch \
             exactly one line, and it touches {changed}"
        ));
    }

    let out_dir = env::var("OUT_DIR").expect("cargo sets OUT_DIR");
    fs::write(Path::new(&out_dir).join("jit_allocator.rs"), patched).expect("OUT_DIR can be written");
}

/// How many lines differ. The change keeps the number of lines, so they are held side by side.
fn changed_lines(original: &str, patched: &str) -> usize {
    assert_eq!(original.lines().count(), patched.lines().count());
    original.lines().zip(patched.lines()).filter(|(a, b)| a != b).count()
}

fn refuse(message: &str) {
    println!("cargo::error={message}");
}
