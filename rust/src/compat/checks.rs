//! Whether a layout is one, by the signatures of ndarray.

use super::Dimension;
use crate::{CanIndexCheckMode, ShapeError, Strides};

/// The product of all lengths, where that of those that aren't 0 is at most `isize::MAX`. ndarray's
/// `size_of_shape_checked`. Not proved.
///
/// # Errors
///
/// `Overflow` for any other.
///
/// ```
/// use ndarray_layout::compat::{Ix2, size_of_shape_checked};
///
/// assert_eq!(size_of_shape_checked(&Ix2(4, 5)), Ok(20));
/// assert!(size_of_shape_checked(&Ix2(0, usize::MAX)).is_err());
/// ```
#[inline]
pub fn size_of_shape_checked<D: Dimension>(dim: &D) -> Result<usize, ShapeError> {
    crate::size_of_shape_checked(dim.proved())
}

/// The span of a layout in elements of `A`, where it fits in memory. ndarray's `max_abs_offset_check_overflow`.
/// Not proved.
///
/// # Errors
///
/// `IncompatibleLayout` for different counts of axes, then `Overflow` where the size, the span, or the span in bytes is
/// past `isize::MAX`.
///
/// ```
/// use ndarray_layout::compat::{Ix2, max_abs_offset_check_overflow};
///
/// assert_eq!(max_abs_offset_check_overflow::<f64, _>(&Ix2(4, 5), &Ix2(5, 1)), Ok(19));
/// ```
#[inline]
pub fn max_abs_offset_check_overflow<A, D: Dimension>(dim: &D, strides: &D) -> Result<usize, ShapeError> {
    crate::max_abs_offset_check_overflow(size_of::<A>(), dim.proved(), strides.proved())
}

/// Whether a layout may index data. ndarray's `can_index_slice`. Not proved.
///
/// # Errors
///
/// Those of [`max_abs_offset_check_overflow`], then `OutOfBounds` where an index would leave the data, then
/// `Unsupported` where two indices might share an element that is owned.
///
/// ```
/// use ndarray_layout::compat::{CanIndexCheckMode, ErrorKind, Ix2, can_index_slice, from_kind};
///
/// let (items, shape, strides) = ([0; 20], Ix2(4, 5), Ix2(5, 1));
/// assert_eq!(can_index_slice(&items, &shape, &strides, CanIndexCheckMode::OwnedMutable), Ok(()));
/// let fault = from_kind(ErrorKind::OutOfBounds);
/// assert_eq!(can_index_slice(&items[1..], &shape, &strides, CanIndexCheckMode::ReadOnly), Err(fault));
/// ```
#[inline]
pub fn can_index_slice<A, D: Dimension>(
    data: &[A],
    dim: &D,
    strides: &D,
    mode: CanIndexCheckMode,
) -> Result<(), ShapeError> {
    crate::can_index_slice(size_of::<A>(), data.len(), dim.proved(), strides.proved(), mode)
}

/// Whether a shape in row-major or column-major order may index data of a length. ndarray's
/// `can_index_slice_not_custom`. Not proved.
///
/// # Errors
///
/// `Overflow` where the size is past `isize::MAX`, then `OutOfBounds` where it is past the length.
///
/// ```
/// use ndarray_layout::compat::{Ix2, can_index_slice_not_custom};
///
/// assert!(can_index_slice_not_custom(20, &Ix2(4, 5)).is_ok() && can_index_slice_not_custom(19, &Ix2(4, 5)).is_err());
/// ```
#[inline]
pub fn can_index_slice_not_custom<D: Dimension>(data_len: usize, dim: &D) -> Result<(), ShapeError> {
    crate::can_index_slice_not_custom(data_len, dim.proved())
}

/// Whether a shape with an order, or with strides of one's own, may index data. ndarray's
/// `can_index_slice_with_strides`. Not proved.
///
/// # Errors
///
/// Those of [`can_index_slice`], or of [`can_index_slice_not_custom`].
///
/// ```
/// use ndarray_layout::compat::{CanIndexCheckMode, Ix2, Strides, can_index_slice_with_strides};
///
/// let fits = |strides| {
///     can_index_slice_with_strides(&[0; 20], &Ix2(4, 5), &strides, CanIndexCheckMode::OwnedMutable).is_ok()
/// };
/// assert!(fits(Strides::F) && !fits(Strides::Custom(Ix2(6, 1))));
/// ```
#[inline]
pub fn can_index_slice_with_strides<A, D: Dimension>(
    data: &[A],
    dim: &D,
    strides: &Strides<D>,
    mode: CanIndexCheckMode,
) -> Result<(), ShapeError> {
    match strides {
        Strides::Custom(strides) => can_index_slice(data, dim, strides, mode),
        Strides::C | Strides::F => can_index_slice_not_custom(data.len(), dim),
    }
}

/// Whether two indices of a layout might share an element. ndarray's `dim_stride_overlap`. Not proved.
///
/// ```
/// use ndarray_layout::compat::{Ix2, dim_stride_overlap};
///
/// assert!(dim_stride_overlap(&Ix2(4, 5), &Ix2(4, 1)) && !dim_stride_overlap(&Ix2(4, 5), &Ix2(5, 1)));
/// ```
#[inline]
#[must_use]
pub fn dim_stride_overlap<D: Dimension>(dim: &D, strides: &D) -> bool {
    crate::dim_stride_overlap(dim.proved(), strides.proved())
}

/// Whether no stride is negative. ndarray's `strides_non_negative`. Not proved.
///
/// # Errors
///
/// `Unsupported` where one is.
///
/// ```
/// use ndarray_layout::compat::{Ix2, strides_non_negative};
///
/// assert!(strides_non_negative(&Ix2(5, 1)).is_ok() && strides_non_negative(&Ix2(5, -1_isize as usize)).is_err());
/// ```
#[inline]
pub fn strides_non_negative<D: Dimension>(strides: &D) -> Result<(), ShapeError> {
    crate::strides_non_negative(strides.proved())
}

/// How far the first index lies from the lowest place of a layout. ndarray's
/// `offset_from_low_addr_ptr_to_logical_ptr`. Not proved.
///
/// ```
/// use ndarray_layout::compat::{Ix2, offset_from_low_addr_ptr_to_logical_ptr};
///
/// assert_eq!(offset_from_low_addr_ptr_to_logical_ptr(&Ix2(4, 5), &Ix2(-5_isize as usize, 1)), 15);
/// ```
#[inline]
#[must_use]
pub fn offset_from_low_addr_ptr_to_logical_ptr<D: Dimension>(dim: &D, strides: &D) -> usize {
    crate::offset_from_low_addr_ptr_to_logical_ptr(dim.proved(), strides.proved())
}

/// Whether a layout is in row-major order without gaps. ndarray's `is_layout_c`. Not proved.
///
/// ```
/// use ndarray_layout::compat::{Ix2, is_layout_c};
///
/// assert!(is_layout_c(&Ix2(4, 5), &Ix2(5, 1)) && !is_layout_c(&Ix2(4, 5), &Ix2(1, 4)));
/// ```
#[inline]
#[must_use]
pub fn is_layout_c<D: Dimension>(dim: &D, strides: &D) -> bool {
    crate::is_layout_c(dim.proved(), strides.proved())
}

/// Whether a layout is in column-major order without gaps. ndarray's `is_layout_f`. Not proved.
///
/// ```
/// use ndarray_layout::compat::{Ix2, is_layout_f};
///
/// assert!(is_layout_f(&Ix2(4, 5), &Ix2(1, 4)) && !is_layout_f(&Ix2(4, 5), &Ix2(5, 1)));
/// ```
#[inline]
#[must_use]
pub fn is_layout_f<D: Dimension>(dim: &D, strides: &D) -> bool {
    crate::is_layout_f(dim.proved(), strides.proved())
}
