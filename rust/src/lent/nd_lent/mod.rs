// Made by `rust/erase` of `crates/nd_lent/src/lib.rt`: edit that.
//! Items that are kept elsewhere, lent as an array or in parts, to be read or written by the places of a layout.

#![allow(unused_imports, unused_variables, reason = "a name that only clauses use")]
#![allow(unused_labels, reason = "proofs name a loop by its label")]
#![allow(
    clippy::explicit_auto_deref,
    clippy::manual_find,
    clippy::manual_map,
    clippy::needless_range_loop,
    clippy::non_canonical_clone_impl,
    clippy::redundant_closure,
    clippy::while_let_on_iterator,
    reason = "a form that is proved with less"
)]
#![allow(clippy::unused_unit, reason = "what the kit has no form for")]
#![allow(clippy::len_without_is_empty, reason = "a sequence is never asked whether it is empty")]
#![allow(clippy::should_implement_trait, reason = "the package has the trait beside what is proved")]
#![allow(clippy::type_complexity, reason = "what comes with its index is lent")]

mod array_view;
mod array_view_mut;
mod axis_last;
mod indexing;
mod memory_range;
mod split_views;
mod views;
mod zip;

pub use crate::lent::nd_access::{LentRow, LentRows, LentRowsOf, RowItems};
pub use crate::lent::nd_items::{IndexedIter, IndexedIterMut, IntoRows, Iter, IterMut, ViewIter};
pub use crate::lent::nd_loops::{EqualTo, Unsigned};
pub use array_view::{ArrayView, Arrays, AxisChunksIter, AxisIter, BlocksIter};
pub use array_view_mut::{ArrayViewMut, AxisChunksIterMut, AxisIterMut, LanesMut, Parts, SliceParts, TilesMut};
pub use split_views::SplitViews;
pub use views::Views;
pub use views::numbered::Numbered;
pub use zip::Zip;
