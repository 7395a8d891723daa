// Made by `rust/erase` of `crates/ndl_tests/src/assertions.rt`: edit that.
//! Tables whose rows are asserted.

use crate::test_tables::{Asked, first_failing};

/// All rows of a table hold, and there is one at least. The first that doesn't is named.
pub fn hold(table: &str, asked: &impl Asked) {
    if let Some(line) = first_failing(table, asked) {
        panic!("{line}");
    }
}
