//! The calls of ndarray 0.17.2's layer by its own signatures: code that is written against that layer compiles against this
//! module, once its `use` lines name it.
//!
//! Each call is a line over one of the package. It panics where that returns an error and ndarray does: where a slice doesn't
//! fit its axis, where an axis is missing, where an allocation fails. The calls of the package itself return these errors.
//!
//! ```
//! use ndarray_layout::compat::{CanIndexCheckMode, Dimension, IntoDimension, ShapeBuilder, can_index_slice};
//!
//! let items = [0; 12];
//! let dim = (2, 3, 2).into_dimension();
//! let mode = CanIndexCheckMode::OwnedMutable;
//! assert!(can_index_slice(&items, &dim, &dim.default_strides(), mode).is_ok());
//! assert!(can_index_slice(&items[1..], &dim, &dim.default_strides(), mode).is_err());
//! assert!(!dim.f().is_c());
//! ```
//!
//! Functions over any `D: Dimension` have what ndarray's have, and bounds of this module alone: its [`Dimension`] isn't the
//! package's, and a file names one or the other. `Ix2` and the other types implement both.
//!
//! What differs from ndarray still:
//!
//! - `IxDyn::zeros`, by this name, returns a `Result`; `D::zeros` of a generic function doesn't.
//! - `Slice::new` and `s!` take the step 0. The call that takes the slice panics.
//! - [`slices_intersect`] looks at each index and each slice before it compares any.
//! - [`dim_stride_overlap`] is false for each shape with a length of 0, and `min_stride_axis` passes over axes of length 0
//!   and 1.
//! - [`reshape_dim`] returns an error where a length of 0 stands beside another one that isn't 1; ndarray may panic there.
//! - Numbers are computed where ndarray's wrap, and a layout at the ends of `isize` is looked at where ndarray panics.

mod arguments;
mod arrays;
mod checks;
mod dimension;
mod dimensions;
mod equations;
mod indices;
mod owned;
pub mod prelude;
mod slice_arguments;
mod slices;
mod steps;

/// For the dimensions of this module:
///
/// ```
/// use ndarray_layout::compat::{DimAdd, Dimension, Ix1, Ix2};
///
/// /// The count of axes of an outer product, where it is fixed.
/// fn count<A: Dimension + DimAdd<B>, B: Dimension>() -> Option<usize> {
///     <A as DimAdd<B>>::Output::NDIM
/// }
///
/// assert_eq!(count::<Ix1, Ix2>(), Some(3));
/// ```
#[doc(inline)]
pub use crate::DimAdd;
/// For the dimensions of this module:
///
/// ```
/// use ndarray_layout::compat::{Dim, DimMax, Dimension, Ix2, ShapeError, co_broadcast};
///
/// fn common<A, B>(shape: &A, other: &B) -> Result<<A as DimMax<B>>::Output, ShapeError>
/// where
///     A: Dimension + DimMax<B>,
///     B: Dimension,
/// {
///     co_broadcast(shape, other)
/// }
///
/// assert_eq!(common(&Ix2(2, 1), &Dim(3)), Ok(Ix2(2, 3)));
/// ```
#[doc(inline)]
pub use crate::DimMax;
/// For the dimensions of this module:
///
/// ```
/// use ndarray_layout::compat::{Axis, Dimension, DimensionExt, Ix2};
///
/// /// The shape with one coordinate of an axis.
/// fn collapsed<D: Dimension>(mut shape: D, axis: Axis) -> D {
///     shape.set_axis(axis, shape.axis(axis).min(1));
///     shape
/// }
///
/// assert_eq!(collapsed(Ix2(4, 5), Axis(0)), Ix2(1, 5));
/// ```
#[doc(inline)]
pub use crate::DimensionExt;
pub use crate::convenience::aliases::*;
pub use crate::nd_base::Dim;
pub use crate::{
    ArrayView, ArrayViewMut, Axes, Axis, AxisDescription, CanIndexCheckMode, ErrorKind, Indices, IndicesIter,
    IndicesIterF, Ix, Ix0, Ix1, Ix2, Ix3, Ix4, Ix5, Ix6, IxDyn, IxDynImpl, Ixs, Layout, NewAxis, Order, Shape,
    ShapeError, Slice, SliceInfo, SliceInfoElem, SliceNextDim, StrideShape, Strides, abs_index, arith_seq_intersect,
    array, from_kind, s, stride_offset, stride_offset_checked,
};
pub use arguments::{Dim, IntoDimension, NdIndex, ShapeArg, ShapeBuilder, ShapeSize};
pub use arrays::{NdProducer, array_layout, indices_of};
pub use checks::*;
pub use dimension::{Dimension, RemoveAxis};
pub use equations::{extended_gcd, solve_linear_diophantine_eq};
pub use indices::{indices, indices_iter_f};
pub use owned::*;
pub use slice_arguments::SliceArg;
pub use slices::{do_slice, slice_min_max, slices_intersect, to_abs_slice};
pub use steps::*;

use crate::LayoutError;
use core::fmt::Display;

/// A result without its error of memory.
#[track_caller]
fn of_shapes<T>(result: Result<T, LayoutError>) -> Result<T, ShapeError> {
    match result {
        Ok(value) => Ok(value),
        Err(LayoutError::Shape(error)) => Err(error),
        Err(LayoutError::Memory(error)) => panic!("{error}"),
    }
}

/// What a call returns where its arguments fit and no allocation fails.
#[track_caller]
fn or_panic<T>(result: Result<T, impl Display>) -> T {
    match result {
        Ok(value) => value,
        Err(error) => panic!("{error}"),
    }
}
