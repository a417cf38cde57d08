//! The Rust original that the library is compared with: its files, unchanged, from outside of this
//! repository. What they import from other crates stands in `imports.rs`, as far as they need it to
//! compile; training itself uses nothing of it but the hash maps.
#![allow(dead_code, unused_imports, unused_variables)]
#![allow(clippy::all)]

extern crate self as rustc_hash;
extern crate self as serde_json;
extern crate self as splintr;

mod imports;
pub use imports::*;

include!(concat!(env!("OUT_DIR"), "/original.rs"));

/// `merge_symbols` of bpe/word.rs, which is private there.
pub fn merge_symbols(
    symbols: &mut [u32],
    left: u32,
    right: u32,
    joined: u32,
    changes: &mut Vec<((u32, u32), i64)>,
) -> (u64, usize) {
    word::merge_symbols(symbols, left, right, joined, changes)
}
