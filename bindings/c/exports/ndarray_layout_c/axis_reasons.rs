// Made by `rust/erase` of `crates/ndarray_layout_c/src/axis_reasons.rt`: edit that.
//! Why a shape can't be split at a coordinate of an axis, and why an axis can't be merged into another one.

use crate::ndarray_layout_c::reasons::{AXIS, Reason, SAME_AXIS, SPLIT, no_reason, of_axis};
use crate::ndarray_layout_c::statuses::{OK, OUT_OF_BOUNDS, UNSUPPORTED};
use crate::unwritten::MaybeUninit;

/// There is no such axis.
///
/// <details><summary>Contract (proved)</summary>
///
/// ```text
/// ensures result ≡ no_axis shape.now axis
/// ```
/// [How to read it](ndarray_layout::contracts)
/// </details>
fn no_axis(shape: &[usize], axis: usize) -> Reason {
    of_axis(OUT_OF_BOUNDS, AXIS, axis, 0, shape.len(), 0)
}

/// Why a shape can't be split at a coordinate of an axis.
///
/// <details><summary>Contract (proved)</summary>
///
/// ```text
/// ensures result ≡ split_reason shape.now axis index
/// ```
/// [How to read it](ndarray_layout::contracts)
/// </details>
fn split_reason(shape: &[usize], axis: usize, index: usize) -> Reason {
    if axis >= shape.len() {
        return no_axis(shape, axis);
    }
    if index > shape[axis] {
        return of_axis(OUT_OF_BOUNDS, SPLIT, axis, 0, shape[axis], index);
    }
    no_reason()
}

/// Writes why a shape can't be split at a coordinate of an axis.
///
/// <details><summary>Contract (proved)</summary>
///
/// ```text
/// ensures status: result ≡ ok
/// ensures reason: reason.new ≡ split_reason shape.now axis index
/// ensures agrees: reason.new.status ≡ status_of (split_fault shape.now axis index)
/// ```
/// [How to read it](ndarray_layout::contracts)
/// </details>
pub fn nd_split_at_reason(shape: &[usize], axis: usize, index: usize, reason: &mut MaybeUninit<Reason>) -> i32 {
    reason.write(split_reason(shape, axis, index));
    OK
}

/// Why an axis can't be merged into another one.
///
/// <details><summary>Contract (proved)</summary>
///
/// ```text
/// ensures result ≡ axes_reason shape.now take into
/// ```
/// [How to read it](ndarray_layout::contracts)
/// </details>
fn axes_reason(shape: &[usize], take: usize, into: usize) -> Reason {
    if take >= shape.len() {
        return no_axis(shape, take);
    }
    if into >= shape.len() {
        return no_axis(shape, into);
    }
    if take == into {
        return of_axis(UNSUPPORTED, SAME_AXIS, take, 0, 0, 0);
    }
    no_reason()
}

/// Writes why an axis can't be merged into another one.
///
/// <details><summary>Contract (proved)</summary>
///
/// ```text
/// ensures status: result ≡ ok
/// ensures reason: reason.new ≡ axes_reason shape.now take into
/// ensures agrees: reason.new.status ≡ status_of (axes_fault shape.now take into)
/// ```
/// [How to read it](ndarray_layout::contracts)
/// </details>
pub fn nd_merge_axes_reason(shape: &[usize], take: usize, into: usize, reason: &mut MaybeUninit<Reason>) -> i32 {
    reason.write(axes_reason(shape, take, into));
    OK
}

pub mod exported {
    use super::*;

    /// # Safety
    ///
    /// Each pointer is aligned and leads to as many items as its count says. That of an empty list isn't looked at.
    #[unsafe(no_mangle)]
    pub unsafe extern "C" fn nd_split_at_reason(
        shape: *const usize,
        shape_count: usize,
        axis: usize,
        index: usize,
        reason: *mut MaybeUninit<Reason>,
    ) -> i32 {
        unsafe {
            super::nd_split_at_reason(
                if shape_count == 0 { &[] } else { ::core::slice::from_raw_parts(shape, shape_count) },
                axis,
                index,
                &mut *reason,
            )
        }
    }

    /// # Safety
    ///
    /// Each pointer is aligned and leads to as many items as its count says. That of an empty list isn't looked at.
    #[unsafe(no_mangle)]
    pub unsafe extern "C" fn nd_merge_axes_reason(
        shape: *const usize,
        shape_count: usize,
        take: usize,
        into: usize,
        reason: *mut MaybeUninit<Reason>,
    ) -> i32 {
        unsafe {
            super::nd_merge_axes_reason(
                if shape_count == 0 { &[] } else { ::core::slice::from_raw_parts(shape, shape_count) },
                take,
                into,
                &mut *reason,
            )
        }
    }
}
