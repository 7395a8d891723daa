// Made by `rust/erase` of `crates/nd_slice/src/slice_errors.rt`: edit that.
//! Which slice arguments fit a shape.

use crate::nd_base::{ErrorKind, Lengths, ShapeError, from_kind};
use crate::nd_slice::axis_elems::AxisElems;
use crate::nd_slice::elem::SliceInfoElem;
use crate::nd_slice::elems::SliceElems;
use crate::nd_slice::fit::Fit;
use crate::nd_slice::picks::resolve_elem;

/// The number of axes of the shapes that a slice argument is for: one for each element but a new
/// axis.
///
/// Takes time in proportion to the slices and indices of the argument.
///
/// `..,2,NewAxis`: 2. ndarray's `SliceArg::in_ndim` of a bare list.
///
/// <details><summary>Contract (proved)</summary>
///
/// ```text
/// ensures result ≡ in_count list.now
/// ```
/// [How to read it](crate::contracts)
/// </details>
#[must_use]
#[inline]
pub fn in_ndim_of(list: &[SliceInfoElem]) -> usize {
    // (a loop that adds 0 or 1 has no branch, and unrolls where the count of elements is known)
    let mut count = 0;
    for elem in list {
        count += usize::from(!matches!(elem, SliceInfoElem::NewAxis));
    }
    count
}

/// The number of axes that a slice argument leaves: one for each element but an index.
///
/// Takes time in proportion to the slices and indices of the argument.
///
/// `..,2,NewAxis`: 2. ndarray's `SliceArg::out_ndim` of a bare list.
///
/// <details><summary>Contract (proved)</summary>
///
/// ```text
/// ensures result ≡ out_count list.now
/// ```
/// [How to read it](crate::contracts)
/// </details>
#[must_use]
#[inline]
pub fn out_ndim_of(list: &[SliceInfoElem]) -> usize {
    let mut count = 0;
    for elem in list {
        count += usize::from(!matches!(elem, SliceInfoElem::Index(_)));
    }
    count
}

/// Returns `Ok` if and only if the elements of a slice argument fit a shape.
///
/// `shape` has one length for each axis; each element but a new axis is for the next axis.
///
/// Takes time in proportion to the slices and indices of the argument.
///
/// `1..,5` on `[2,3]`: `OutOfBounds`. In place of the panics of ndarray's `slice_collapse`.
///
/// # Errors
///
/// `IncompatibleShape` where the elements are for more axes than the shape has, or for fewer.
/// Otherwise the error of the first element that doesn't fit: `OutOfBounds` for an index that is no
/// coordinate of its axis, or for a bound that means no number from 0 to the length (never with
/// `Fit::Clamp`); then `Unsupported` for the step 0.
///
/// <details><summary>Contract (proved)</summary>
///
/// ```text
/// ensures result_err result ≡ argument_fault fit shape.now elems.now
/// ```
/// [How to read it](crate::contracts)
/// </details>
#[inline]
pub fn check_elems(shape: &[usize], elems: &[SliceInfoElem], fit: Fit) -> Result<(), ShapeError> {
    if in_ndim_of(elems) != shape.len() {
        return Err(from_kind(ErrorKind::IncompatibleShape));
    }
    for (len, elem) in AxisElems::new(shape, elems) {
        resolve_elem(len, elem, fit)?;
    }
    Ok(())
}

/// Returns `Ok` if and only if a slice argument fits a shape, whatever types hold the two.
///
/// Takes time in proportion to the slices and indices of the argument.
///
/// `..;0,7` on `[2,3]`: `Unsupported`. In place of the panics of ndarray's `slice_move`.
///
/// # Errors
///
/// Those of `check_elems`, in its order.
///
/// <details><summary>Contract (proved)</summary>
///
/// ```text
/// ensures result_err result ≡ argument_fault fit (D.list dim.now) (S.list slices.now)
/// ```
/// [How to read it](crate::contracts)
/// </details>
#[inline]
pub fn check_slice<D: Lengths, S: SliceElems>(dim: &D, slices: &S, fit: Fit) -> Result<(), ShapeError> {
    check_elems(dim.slice(), slices.elems(), fit)
}
