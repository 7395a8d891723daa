// Made by `rust/erase` of `crates/nd_shape/src/lib.rt`: edit that.
//! Which layouts are accepted over data, where their indices lie, and iterators over them: the calls of ndarray 0.17.2
//! that look at a shape and strides alone.

#![allow(unused_imports, unused_variables, reason = "a name that only clauses use")]
#![allow(unused_labels, reason = "proofs name a loop by its label")]
#![allow(
    clippy::explicit_auto_deref,
    clippy::manual_find,
    clippy::manual_map,
    clippy::needless_range_loop,
    clippy::non_canonical_clone_impl,
    clippy::redundant_closure,
    clippy::while_let_on_iterator,
    reason = "a form that is proved with less"
)]
#![allow(clippy::unused_unit, reason = "what the kit has no form for")]
#![allow(clippy::len_without_is_empty, reason = "a sequence is never asked whether it is empty")]
#![allow(clippy::should_implement_trait, reason = "the package has the trait beside what is proved")]
#![allow(clippy::type_complexity, reason = "what comes with its index is lent")]

mod acceptance;
mod axes;
mod axes_iter;
mod broadcast;
mod indexes;
mod layout;
mod layout_start;
mod major_order;
mod merge;
mod min_stride;
mod ndindex;
mod no_alias;
mod shape_builder;
mod size_limits;

pub use acceptance::{
    CanIndexCheckMode, accept, can_index_slice, can_index_slice_not_custom, can_index_slice_with_strides,
    max_abs_offset_check_overflow, size_of_shape_checked, span_of_lengths, strides_non_negative,
};
pub use axes::{Axes, AxisDescription, axes_of};
pub use broadcast::{co_broadcast, fill_common_shape, have_common_shape};
pub use indexes::{IndexCursor, IndexCursorF, Indices, IndicesIter, IndicesIterF, all_indices, indices_iter_f};
pub use layout::Layout;
pub use layout_start::{low_span, offset_from_low_addr_ptr_to_logical_ptr};
pub use major_order::{is_layout_c, is_layout_f};
pub use merge::{goes_on, merge_axes, merge_fitting};
pub use min_stride::move_min_stride_axis_to_last;
pub use ndindex::NdIndex;
pub use no_alias::{dim_stride_overlap, has_overlap};
pub use shape_builder::{Shape, ShapeBuilder, StrideShape, Strides};
