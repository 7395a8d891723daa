//! Slices of axes and of shapes, by the signatures of ndarray.

use super::{Dimension, SliceArg, or_panic};
use crate::{Fit, Slice};

/// The start, the end and the step of a slice of an axis, with both bounds counted from 0. ndarray's `to_abs_slice`.
/// Not proved.
///
/// # Panics
///
/// Where a bound is past the axis, and at the step 0.
///
/// ```
/// use ndarray_layout::compat::{Slice, to_abs_slice};
///
/// assert_eq!(to_abs_slice(4, Slice::new(-3, None, -2)), (1, 4, -2));
/// ```
#[inline]
#[must_use]
#[track_caller]
pub fn to_abs_slice(axis_len: usize, slice: Slice) -> (usize, usize, isize) {
    or_panic(crate::to_abs_slice(axis_len, slice, Fit::Strict))
}

/// Slices an axis in place, and returns how far its first coordinate moves. ndarray's `do_slice`. Not proved.
///
/// # Panics
///
/// Where a bound is past the axis, and at the step 0.
///
/// ```
/// use ndarray_layout::compat::{Slice, do_slice};
///
/// let (mut dim, mut stride) = (4, 3);
/// assert_eq!(do_slice(&mut dim, &mut stride, Slice::new(1, None, -2)), 9);
/// assert_eq!((dim, stride as isize), (2, -6));
/// ```
#[inline]
#[must_use]
#[track_caller]
pub fn do_slice(dim: &mut usize, stride: &mut usize, slice: Slice) -> isize {
    or_panic(crate::do_slice(dim, stride, slice, Fit::Strict))
}

/// The least and the greatest coordinate that a slice picks; `None` where it picks none. ndarray's `slice_min_max`.
/// Not proved.
///
/// # Panics
///
/// Where a bound is past the axis, and at the step 0.
///
/// ```
/// use ndarray_layout::compat::{Slice, slice_min_max};
///
/// assert_eq!(slice_min_max(4, Slice::new(1, None, -2)), Some((1, 3)));
/// assert_eq!(slice_min_max(4, Slice::new(3, Some(1), 1)), None);
/// ```
#[inline]
#[must_use]
#[track_caller]
pub fn slice_min_max(axis_len: usize, slice: Slice) -> Option<(usize, usize)> {
    let _ = to_abs_slice(axis_len, slice);
    crate::slice_min_max(axis_len, slice, Fit::Strict)
}

/// Whether two slices of a shape share an index. ndarray's `slices_intersect`. Not proved.
///
/// # Panics
///
/// Where an index or a bound is past its axis, at the step 0, and for another count of axes. ndarray doesn't look at each.
///
/// ```
/// use ndarray_layout::compat::{Ix2, s, slices_intersect};
///
/// assert!(slices_intersect(&Ix2(4, 5), s![..;2, ..], s![..;3, 1..]));
/// assert!(!slices_intersect(&Ix2(4, 5), s![..;2, ..], s![1..;2, ..]));
/// ```
#[inline]
#[must_use]
#[track_caller]
pub fn slices_intersect<D: Dimension>(dim: &D, indices1: impl SliceArg<D>, indices2: impl SliceArg<D>) -> bool {
    or_panic(crate::slices_intersect(dim.proved(), &indices1.as_ref(), &indices2.as_ref(), Fit::Strict))
}
