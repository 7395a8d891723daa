// Made by `rust/erase` of `crates/test_tables/src/lib.rt`: edit that.
//! What the tests of several crates share: rows of tables and their words, questions asked at a dimension type that a
//! row names, the names of errors, hashes, what is printed, requests for memory.
//!
//! A table is lines, and each is a row: `CALL ARG ARG .. => ANSWER`. Rows of one call and one answer may stand in one
//! line: `CALL ARG .. / ARG .. => ANSWER`. Spaces separate words. A word is a name, a number, a list of numbers
//! (`2,3,-1`, or `-` for none), slice elements (`1..4;2`, `-1`, `NewAxis`, with commas between them), or the name of a
//! dimension type (`Ix0` to `Ix6`, `IxDyn`). Negative lengths and strides are kept by their bits. A row that can't be
//! read fails its test, and so does an empty table.

#![allow(unused_imports, unused_variables, reason = "a name that only clauses use")]
#![allow(unused_labels, reason = "proofs name a loop by its label")]
#![allow(
    clippy::explicit_auto_deref,
    clippy::manual_find,
    clippy::manual_map,
    clippy::needless_range_loop,
    clippy::non_canonical_clone_impl,
    clippy::redundant_closure,
    clippy::while_let_on_iterator,
    reason = "a form that is proved with less"
)]
#![allow(clippy::unused_unit, reason = "what the kit has no form for")]
#![allow(clippy::len_without_is_empty, reason = "a sequence is never asked whether it is empty")]
#![allow(clippy::should_implement_trait, reason = "the package has the trait beside what is proved")]
#![allow(clippy::type_complexity, reason = "what comes with its index is lent")]
#![allow(dead_code, reason = "what one test or program calls, and not each")]
#![allow(clippy::incompatible_msrv, reason = "what the package's least rustc hasn't: programs and tests aren't packed")]
#![allow(
    clippy::collapsible_if,
    clippy::needless_lifetimes,
    clippy::question_mark,
    clippy::redundant_pattern_matching,
    reason = "a form that is proved with less"
)]
#![allow(
    clippy::comparison_to_empty,
    clippy::partialeq_to_none,
    clippy::unwrap_or_default,
    reason = "what the kit has no form for"
)]
#![allow(
    clippy::len_zero,
    clippy::reversed_empty_ranges,
    clippy::unit_cmp,
    mismatched_lifetime_syntaxes,
    reason = "what a test is about"
)]

mod equality;
mod faults;
mod lists;
mod memory;
mod row;
mod slices;
mod tables;
mod texts;
mod types;

pub use equality::hash_of;
pub use faults::{fault_of, layout_fault_name, name_of, or_fault};
pub use lists::{List, Lists, made};
pub use memory::grants;
pub use row::{Reading, Row, Words};
pub use tables::{Asked, first_failing, meaning, row_holds};
pub use texts::is_printed;
pub use types::{AtType, at_each_type, at_type};
