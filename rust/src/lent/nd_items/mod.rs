// Made by `rust/erase` of `crates/nd_items/src/lib.rt`: edit that.
//! Items that are lent one after another, from both ends, to be read or written, with their indices, and row by row.

#![allow(unused_imports, unused_variables, reason = "a name that only clauses use")]
#![allow(unused_labels, reason = "proofs name a loop by its label")]
#![allow(
    clippy::explicit_auto_deref,
    clippy::manual_find,
    clippy::manual_map,
    clippy::needless_range_loop,
    clippy::non_canonical_clone_impl,
    clippy::redundant_closure,
    clippy::while_let_on_iterator,
    reason = "a form that is proved with less"
)]
#![allow(clippy::unused_unit, reason = "what the kit has no form for")]
#![allow(clippy::len_without_is_empty, reason = "a sequence is never asked whether it is empty")]
#![allow(clippy::should_implement_trait, reason = "the package has the trait beside what is proved")]
#![allow(clippy::type_complexity, reason = "what comes with its index is lent")]

mod copying;
mod indexed_of;
mod into_rows;
mod items;
mod iterating;
mod next_index;

pub use indexed_of::{IndexedIter, IndexedIterMut, IndexedOf, LentItems};
pub use into_rows::IntoRows;
pub use items::IterMut;
pub use iterating::{Iter, IterOf, ViewIter};
pub use next_index::NextIndex;
