//! Calls on the axes of one layout or of two, by the signatures of ndarray.

use super::{Dimension, of_shapes};
use crate::{Axes, Axis, Order, ShapeError};

/// The axes of a layout, one by one. ndarray's `axes_of`. Not proved.
///
/// ```
/// use ndarray_layout::compat::{Axis, Ix2, axes_of};
///
/// let (shape, strides) = (Ix2(4, 5), Ix2(5, 1));
/// let longest = axes_of(&shape, &strides).max_by_key(|axis| axis.len).unwrap();
/// assert_eq!((longest.axis, longest.stride), (Axis(1), 1));
/// ```
#[inline]
#[must_use]
pub fn axes_of<'a, D: Dimension>(dim: &'a D, strides: &'a D) -> Axes<'a> {
    crate::axes_of(dim.proved(), strides.proved())
}

/// The shape that two shapes broadcast to. ndarray's `co_broadcast`. Not proved.
///
/// # Errors
///
/// `IncompatibleShape` where two lengths differ and none of them is 1.
///
/// # Panics
///
/// Where `Output` has another count of axes than the longer shape, and where an allocation fails.
///
/// ```
/// use ndarray_layout::compat::{Ix1, Ix2, Ix3, co_broadcast};
///
/// assert_eq!(co_broadcast::<Ix2, Ix3, Ix3>(&Ix2(4, 1), &Ix3(3, 1, 5)), Ok(Ix3(3, 4, 5)));
/// assert!(co_broadcast::<Ix1, Ix1, Ix1>(&Ix1(4), &Ix1(5)).is_err());
/// ```
#[track_caller]
pub fn co_broadcast<D1: Dimension, D2: Dimension, Output: Dimension>(
    shape1: &D1,
    shape2: &D2,
) -> Result<Output, ShapeError> {
    let count = shape1.ndim().max(shape2.ndim());
    assert!(Output::NDIM.is_none_or(|fixed| fixed == count), "the type has another count of axes");
    of_shapes(crate::co_broadcast(shape1.proved(), shape2.proved())).map(Output::of_proved)
}

/// The strides by which the elements of a layout have another shape. ndarray's `reshape_dim`. Not proved.
///
/// # Errors
///
/// `IncompatibleLayout` where no strides do, as far as the shapes are read; then `IncompatibleShape` for another size.
///
/// # Panics
///
/// Where the counts of axes of the layout differ, and where an allocation fails.
///
/// ```
/// use ndarray_layout::compat::{Ix1, Ix2, Order, reshape_dim};
///
/// assert_eq!(reshape_dim(&Ix2(4, 5), &Ix2(10, 2), &Ix1(20), Order::C), Ok(Ix1(2)));
/// assert!(reshape_dim(&Ix2(4, 5), &Ix2(10, 2), &Ix1(20), Order::F).is_err());
/// ```
#[track_caller]
pub fn reshape_dim<D: Dimension, E: Dimension>(from: &D, strides: &D, to: &E, order: Order) -> Result<E, ShapeError> {
    assert_eq!(from.ndim(), strides.ndim(), "a layout has as many strides as axes");
    of_shapes(crate::reshape_dim(from.proved(), strides.proved(), to.proved(), order)).map(E::of_proved)
}

/// Takes one coordinate of an axis in place, and returns how far the first index moves. ndarray's `do_collapse_axis`.
/// Not proved.
///
/// # Panics
///
/// Where there is no such axis or coordinate.
///
/// ```
/// use ndarray_layout::compat::{Ix2, do_collapse_axis};
///
/// let mut shape = Ix2(4, 5);
/// assert_eq!(do_collapse_axis(&mut shape, &Ix2(5, 1), 0, 3), 15);
/// assert_eq!(shape, Ix2(1, 5));
/// ```
#[must_use]
#[track_caller]
pub fn do_collapse_axis<D: Dimension>(dims: &mut D, strides: &D, axis: usize, index: usize) -> isize {
    assert!(index < dims.axis(Axis(axis)), "there is no such coordinate");
    crate::do_collapse_axis(dims.proved_mut(), strides.proved(), axis, index)
}

/// Merges an axis into another where their elements go on from one to the next, and returns whether they do. ndarray's
/// `merge_axes`. Not proved.
///
/// # Panics
///
/// Where there is no such axis.
///
/// ```
/// use ndarray_layout::compat::{Axis, Ix2, merge_axes};
///
/// let (mut shape, mut strides) = (Ix2(4, 5), Ix2(5, 1));
/// assert!(merge_axes(&mut shape, &mut strides, Axis(0), Axis(1)));
/// assert_eq!((shape, strides), (Ix2(1, 20), Ix2(5, 1)));
/// ```
#[must_use]
pub fn merge_axes<D: Dimension>(dim: &mut D, strides: &mut D, take: Axis, into: Axis) -> bool {
    crate::merge_axes(dim.proved_mut(), strides.proved_mut(), take, into)
}

/// Swaps the axis with the stride of least magnitude, of those of length greater than 1, with the last one. ndarray's
/// `move_min_stride_axis_to_last`. Not proved.
///
/// ```
/// use ndarray_layout::compat::{Ix2, move_min_stride_axis_to_last};
///
/// let (mut shape, mut strides) = (Ix2(4, 5), Ix2(1, 4));
/// move_min_stride_axis_to_last(&mut shape, &mut strides);
/// assert_eq!((shape, strides), (Ix2(5, 4), Ix2(4, 1)));
/// ```
pub fn move_min_stride_axis_to_last<D: Dimension>(dim: &mut D, strides: &mut D) {
    crate::move_min_stride_axis_to_last(dim.proved_mut(), strides.proved_mut());
}

/// The error of two shapes that don't fit each other. ndarray's `incompatible_shapes`. Not proved.
///
/// ```
/// use ndarray_layout::compat::{ErrorKind, Ix1, Ix2, incompatible_shapes};
///
/// assert_eq!(incompatible_shapes(&Ix1(4), &Ix2(4, 5)).kind(), ErrorKind::IncompatibleShape);
/// ```
#[must_use]
pub fn incompatible_shapes<D: Dimension, E: Dimension>(dim: &D, other: &E) -> ShapeError {
    crate::nd_dim::incompatible_shapes(dim.proved(), other.proved())
}
