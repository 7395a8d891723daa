//! The tests that stand in the private module `smallvec` of the package, which is compiled once more for them.
#![allow(dead_code)]

extern crate alloc;

use ndarray_layout::memory;

#[path = "../src/smallvec.rs"]
mod smallvec;
