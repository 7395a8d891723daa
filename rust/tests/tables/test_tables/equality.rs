// Made by `rust/erase` of `crates/test_tables/src/equality.rt`: edit that.
//! The hashes of values.

use core::hash::Hash;
use core::hash::Hasher;
use std::hash::DefaultHasher;

/// The hash of a value.
pub fn hash_of<T: Hash>(value: &T) -> u64 {
    let mut state = DefaultHasher::new();
    value.hash(&mut state);
    state.finish()
}
