// Made by `rust/erase` of `crates/nd_lent/src/axis_last.rt`: edit that.
//! A view with one of its axes after all others.

use crate::ndarray_layout::{Axis, ErrorKind, Lengths, ShapeError, Strided, from_kind, has_axis};

/// The view with an axis after all others, which keep their order.
///
/// Takes no memory, and time in proportion to the count of axes.
///
/// Axis 0 of `[2,3,4]`, `[12,4,1]`: `[3,4,2]`, `[4,1,12]`.
///
/// # Errors
///
/// `OutOfBounds` where there is no such axis.
///
/// <details><summary>Contract (proved)</summary>
///
/// ```text
/// ensures fault: result_err result ≡ invert_fault view.shape axis.0
/// ensures view: IfOk result (λ last. last ≡ axis_last_of axis.0 view)
/// ensures kept: IfOk result (Descends (axis_last_source (length view.shape) axis.0) view)
/// ```
/// [How to read it](crate::contracts)
/// </details>
#[inline]
pub(crate) fn with_axis_last<D: Lengths>(view: Strided<D>, axis: Axis) -> Result<Strided<D>, ShapeError> {
    if !has_axis(view.dim().slice(), axis) {
        return Err(from_kind(ErrorKind::OutOfBounds));
    }
    let mut view = view;
    for position in axis.index()..view.dim().ndim() - 1 {
        view.swap_axes(Axis(position), Axis(position + 1))?;
    }
    Ok(view)
}
