// Made by `rust/erase` of `crates/test_tables/src/memory.rt`: edit that.
//! Requests for memory.

use ::ndarray_layout::memory::prelude::{FallibleVec, Vec};

/// Whether one small request for memory is granted.
pub fn grants() -> bool {
    let mut one = Vec::new();
    one.fallible_push(1_u8).is_ok()
}
