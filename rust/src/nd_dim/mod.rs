// Made by `rust/erase` of `crates/nd_dim/src/lib.rt`: edit that.
//! What all shapes and indices can do, by their lists of lengths, whatever their type. Where docs name an
//! item of ndarray, it is that of ndarray 0.17.2.

#![allow(unused_imports, unused_variables, reason = "a name that only clauses use")]
#![allow(unused_labels, reason = "proofs name a loop by its label")]
#![allow(
    clippy::explicit_auto_deref,
    clippy::manual_find,
    clippy::manual_map,
    clippy::needless_range_loop,
    clippy::non_canonical_clone_impl,
    clippy::redundant_closure,
    clippy::while_let_on_iterator,
    reason = "a form that is proved with less"
)]
#![allow(clippy::unused_unit, reason = "what the kit has no form for")]
#![allow(clippy::len_without_is_empty, reason = "a sequence is never asked whether it is empty")]
#![allow(clippy::should_implement_trait, reason = "the package has the trait beside what is proved")]
#![allow(clippy::type_complexity, reason = "what comes with its index is lent")]

mod contiguous;
mod conversion;
mod dimension;
mod dimensions;
mod error;
mod insert_axis;
mod last_len;
mod next_index;
mod remove_axis;
mod sequence;
mod shape_arg;
mod sizes;
mod stride_axes;
mod stride_order;
mod strides;

pub use crate::nd_base::{
    Arithmetic, Axis, Convert, Dim, ErrorKind, FixedCount, INLINE_AXES, Ix0, Ix1, Ix2, Ix3, Ix4, Ix5, Ix6, IxDyn,
    IxDynImpl, LayoutError, Lengths, Order, Scale, ShapeError, axis_of, from_kind, has_axis, index_offset, is_index,
    is_multiple, new_ix0, new_ix1, new_ix2, new_ix3, new_ix4, new_ix5, new_ix6, new_ixdyn, set_axis_of, signed,
    stride_offset, stride_offset_checked, unsigned,
};
pub use conversion::{IntoDimension, new_dim};
pub use dimension::Dimension;
pub use error::incompatible_shapes;
pub use next_index::{advance_column_major, advance_row_major};
pub use remove_axis::RemoveAxis;
pub use sequence::{Forward, Reverse, Sequence, SequenceMut, item};
pub use shape_arg::ShapeArg;
pub use sizes::product;
pub use stride_axes::magnitude_at;
pub use strides::{default_strides, fortran_strides};
