// Made by `rust/erase` of `crates/nd_access/src/lib.rt`: edit that.
//! Elements of a slice by their places, lent to be read or written at the price of a pointer, alone or row by row. The `unsafe`
//! of the layer stands here, but for one line of `nd_lent`: the contracts say which elements a value has the right to.

#![allow(unused_imports, unused_variables, reason = "a name that only clauses use")]
#![allow(unused_labels, reason = "proofs name a loop by its label")]
#![allow(
    clippy::explicit_auto_deref,
    clippy::manual_find,
    clippy::manual_map,
    clippy::needless_range_loop,
    clippy::non_canonical_clone_impl,
    clippy::redundant_closure,
    clippy::while_let_on_iterator,
    reason = "a form that is proved with less"
)]
#![allow(clippy::unused_unit, reason = "what the kit has no form for")]
#![allow(clippy::len_without_is_empty, reason = "a sequence is never asked whether it is empty")]
#![allow(clippy::should_implement_trait, reason = "the package has the trait beside what is proved")]
#![allow(clippy::type_complexity, reason = "what comes with its index is lent")]

mod cells;
mod row_by_row;
mod row_items;
mod rows;

pub use cells::{Cells, Reader};
pub use row_by_row::RowByRow;
pub use row_items::RowItems;
pub use rows::{LentRow, LentRows, LentRowsOf, is_contiguous, place_in_row};
