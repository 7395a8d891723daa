//! What ndarray's users type: the names, conversions, traits and the macro `s!` that the layer's sources leave out.
//!
//! Each item calls the layer, is tested with ndarray's values, and says that it isn't proved; `Ix0` to `Ix6` are calls of
//! the layer. A copy that needs memory, as of an `IxDyn` of more than 4 axes, panics where an allocation fails. The layer's
//! own calls return the error instead.

pub(crate) mod aliases;
mod array_slices;
mod arrays;
mod comparing;
mod dimension_types;
mod dimensions;
mod errors;
mod iterators;
pub mod prelude;
mod printing;
mod slice_arguments;
mod views;

// Each function by the name of its type.
pub use crate::nd_base::{
    new_ix0 as Ix0, new_ix1 as Ix1, new_ix2 as Ix2, new_ix3 as Ix3, new_ix4 as Ix4, new_ix5 as Ix5, new_ix6 as Ix6,
};
pub use aliases::*;
pub use dimension_types::{DimAdd, DimMax};
pub use dimensions::{Dim, DimensionExt, Ix, IxDyn, Ixs};
pub use iterators::IndexCopies;
pub(crate) use iterators::printed;
pub(crate) use printing::layout_of;
pub use slice_arguments::{SliceBuilder, SliceNextDim, stepped};

/// What an infallible call says where an allocation fails.
pub(crate) const OUT_OF_MEMORY: &str = "out of memory";
