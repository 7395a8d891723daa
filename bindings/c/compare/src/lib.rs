//! 100,000 random calls of each export, of the library for C (the proved one, or another: `build.rs`) and of the package: the
//! status is the same, and so is all that is written, or unchanged after an error.
#![cfg(test)]
// (the exports are what C calls, and one is proved with a closure where a path would do)
#![allow(clippy::too_many_arguments, clippy::redundant_closure)]

#[allow(dead_code)]
#[path = "../../../../rust/tests/random/arguments.rs"]
mod arguments;
mod blocks;
mod compare;
mod indices;
mod layouts;
#[allow(dead_code)]
#[path = "../../../../rust/tests/random/model/mod.rs"]
mod model;
#[path = "../../../../rust/tests/random/numbers.rs"]
mod numbers;
#[deny(dead_code)]
mod exports;
mod reasons;
mod shapes;
mod slices;
mod texts;

use std::collections::BTreeSet;

#[path = "../../exports/ndarray_layout_c/mod.rs"]
pub mod ndarray_layout_c;
#[path = "../../exports/unwritten.rs"]
mod unwritten;

/// (a call of `exports` that no test makes is dead code, which is an error)
#[test]
fn each_call_of_the_header_is_compared() {
    let header = include_str!("../../ndarray_layout.h");
    let calls = header.lines().filter_map(|line| line.strip_prefix("int32_t ")?.split('(').next());
    assert_eq!(calls.collect::<BTreeSet<_>>(), BTreeSet::from_iter(exports::CALLS.iter().copied()));
}
