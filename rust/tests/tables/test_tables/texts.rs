// Made by `rust/erase` of `crates/test_tables/src/texts.rt`: edit that.
//! What is printed.

use ::ndarray_layout::memory::AllocError;
use ::ndarray_layout::memory::prelude::String;

/// Whether this text was printed.
pub fn is_printed(printed: Result<String, AllocError>, text: &str) -> bool {
    match printed {
        Ok(printed) => printed.as_str() == text,
        Err(_) => false,
    }
}
