// Made by `rust/erase` of `crates/nd_base/src/lib.rt`: edit that.
//! What every layer of the array stack above speaks of: dimension types as lists of lengths, axes, orders,
//! errors, and strides read as signed numbers. Where docs name an item of ndarray, it is that of
//! ndarray 0.17.2.

#![allow(unused_imports, unused_variables, reason = "a name that only clauses use")]
#![allow(unused_labels, reason = "proofs name a loop by its label")]
#![allow(
    clippy::explicit_auto_deref,
    clippy::manual_find,
    clippy::manual_map,
    clippy::needless_range_loop,
    clippy::non_canonical_clone_impl,
    clippy::redundant_closure,
    clippy::while_let_on_iterator,
    reason = "a form that is proved with less"
)]
#![allow(clippy::unused_unit, reason = "what the kit has no form for")]
#![allow(clippy::len_without_is_empty, reason = "a sequence is never asked whether it is empty")]
#![allow(clippy::should_implement_trait, reason = "the package has the trait beside what is proved")]
#![allow(clippy::type_complexity, reason = "what comes with its index is lent")]

mod arithmetic;
mod axis;
mod conversion;
mod dim;
mod dynindeximpl;
mod elementwise;
mod error;
mod indices;
mod ixdyn;
mod lengths;
mod numbers;
mod offsets;
mod ops;
mod order;
mod signed_strides;

pub use arithmetic::{Arithmetic, Scale};
pub use axis::{Axis, axis_of, has_axis, set_axis_of};
pub use conversion::Convert;
pub use dim::{
    Dim, Ix0, Ix1, Ix2, Ix3, Ix4, Ix5, Ix6, IxDyn, new_ix0, new_ix1, new_ix2, new_ix3, new_ix4, new_ix5, new_ix6,
};
pub use dynindeximpl::IxDynImpl;
pub use error::{ErrorKind, LayoutError, ShapeError, from_kind};
pub use indices::is_index;
pub use ixdyn::new_ixdyn;
pub use lengths::{FixedCount, INLINE_AXES, Lengths};
pub use offsets::{index_offset, stride_offset_checked};
pub use order::Order;
pub use signed_strides::{is_multiple, signed, stride_offset, unsigned};
