// Made by `rust/erase` of `crates/nd_owned/src/lib.rt`: edit that.
//! Arrays that own their items, over the layout layer: parts of one array, picked by slices, are read and written by the places
//! of its layout. What lends items is re-exported.

#![allow(unused_imports, unused_variables, reason = "a name that only clauses use")]
#![allow(unused_labels, reason = "proofs name a loop by its label")]
#![allow(
    clippy::explicit_auto_deref,
    clippy::manual_find,
    clippy::manual_map,
    clippy::needless_range_loop,
    clippy::non_canonical_clone_impl,
    clippy::redundant_closure,
    clippy::while_let_on_iterator,
    reason = "a form that is proved with less"
)]
#![allow(clippy::unused_unit, reason = "what the kit has no form for")]
#![allow(clippy::len_without_is_empty, reason = "a sequence is never asked whether it is empty")]
#![allow(clippy::should_implement_trait, reason = "the package has the trait beside what is proved")]
#![allow(clippy::type_complexity, reason = "what comes with its index is lent")]

mod even_rows;
mod iterating;
mod multi_set;
mod one_or_many;
mod owned;
mod picked_view;
mod ready;
mod rows;

pub use crate::lent::nd_lent::{
    ArrayView, ArrayViewMut, Arrays, AxisChunksIter, AxisChunksIterMut, AxisIter, AxisIterMut, BlocksIter, EqualTo,
    IndexedIter, IndexedIterMut, IntoRows, Iter, IterMut, LanesMut, LentRow, LentRows, Parts, RowItems, SliceParts,
    SplitViews, TilesMut, Unsigned, ViewIter,
};
pub use iterating::Items;
pub use owned::OwnedArray;
pub use ready::ReadySlice;
