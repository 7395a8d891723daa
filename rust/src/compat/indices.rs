//! The indices of shapes, by the signatures of ndarray.

use super::{Dimension, IntoDimension, or_panic};
use crate::{Indices, IndicesIterF};

/// All indices of a shape, to be iterated over in row-major order. ndarray's `indices`. Not proved.
///
/// # Panics
///
/// Where an allocation fails. A loop over the result panics where the size passes `usize`, with overflow checks.
///
/// ```
/// use ndarray_layout::compat::{Dimension, IxDyn, indices};
///
/// /// The last index of a shape.
/// fn last<D: Dimension>(shape: D) -> Option<D::Pattern> {
///     indices(shape).into_iter().last()
/// }
///
/// assert_eq!(last(IxDyn(&[4, 5])), Some(IxDyn(&[3, 4])));
/// assert!(indices((2, 2)).into_iter().eq([(0, 0), (0, 1), (1, 0), (1, 1)]));
/// ```
#[inline]
#[must_use]
#[track_caller]
pub fn indices<E: IntoDimension>(shape: E) -> Indices<<E::Dim as Dimension>::Proved> {
    or_panic(crate::all_indices(shape.into_dimension().into_proved()))
}

/// An iterator over all indices of a shape, in column-major order. ndarray's `indices_iter_f`. Not proved.
///
/// # Panics
///
/// Where the size passes `usize`, with overflow checks, and where an allocation fails.
///
/// ```
/// use ndarray_layout::compat::indices_iter_f;
///
/// assert!(indices_iter_f((2, 2)).eq([(0, 0), (1, 0), (0, 1), (1, 1)]));
/// ```
#[inline]
#[must_use]
#[track_caller]
pub fn indices_iter_f<E: IntoDimension>(shape: E) -> IndicesIterF<<E::Dim as Dimension>::Proved> {
    or_panic(crate::indices_iter_f(shape.into_dimension().into_proved()))
}
