// Made by `rust/erase` of `crates/nd_shape/src/indexes.rt`: edit that.
//! Iterators over all indices of a shape.

mod cursor;
mod indices;
mod indices_iter;
mod order;

use crate::memory::AllocError;
use crate::nd_base::Lengths;
use crate::nd_dim::IntoDimension;
pub use cursor::{IndexCursor, IndexCursorF};
pub use indices::Indices;
pub use indices_iter::{IndicesIter, IndicesIterF};

/// All indices of a shape, over which a `for` loop iterates in row-major order, where the last axis
/// moves fastest.
///
/// `[3,2]`: (0, 0), (0, 1), (1, 0), (1, 1), (2, 0), (2, 1). ndarray's `indices`.
///
/// # Errors
///
/// Out of memory; never where the type fixes the count of axes or there are at most 4, nor from a
/// dimension, an `IxDynImpl` or a vector.
///
/// # Conditions
///
/// The caller ensures that the product of the lengths is less than 2^64 (`size_checked`). Otherwise this call or a
/// later one panics or returns unspecified values.
///
/// <details><summary>Contract (proved)</summary>
///
/// ```text
/// requires size (T.lens shape) < 2 ^ 64
/// ensures dim: IfOk result (λ indices. D.list indices ≡ T.lens shape)
/// ensures memory: NeedsNoMemory D.NDIM (length (T.lens shape)) → IsOk result
/// ensures no_memory: T.needs_memory shape ≡ false → IsOk result
/// ```
/// [How to read it](crate::contracts)
/// </details>
#[inline]
pub fn all_indices<D: Lengths, T: IntoDimension<Dim = D>>(shape: T) -> Result<Indices<D>, AllocError> {
    Ok(Indices::new(shape.into_dimension()?))
}

/// An iterator over all indices of a shape in column-major order, where the first axis moves fastest.
///
/// `[3,2]`: (0, 0), (1, 0), (2, 0), (0, 1), (1, 1), (2, 1). ndarray's `indices_iter_f`.
///
/// # Errors
///
/// Out of memory; never where the type fixes the count of axes or there are at most 4.
///
/// # Conditions
///
/// The caller ensures that the product of the lengths is less than 2^64 (`size_checked`). Otherwise this call or a
/// later one panics or returns unspecified values.
///
/// <details><summary>Contract (proved)</summary>
///
/// ```text
/// requires size (T.lens shape) < 2 ^ 64
/// ensures items: IfOk result (λ iter. iter ≡ indices_in ColumnMajor (T.lens shape))
/// ensures memory: NeedsNoMemory D.NDIM (length (T.lens shape)) → IsOk result
/// ```
/// [How to read it](crate::contracts)
/// </details>
#[inline]
pub fn indices_iter_f<D: Lengths, T: IntoDimension<Dim = D>>(shape: T) -> Result<IndicesIterF<D>, AllocError> {
    let dim: D = shape.into_dimension()?;
    let first = D::zeros(dim.ndim())?;
    Ok(IndicesIterF::starting(dim, first))
}
