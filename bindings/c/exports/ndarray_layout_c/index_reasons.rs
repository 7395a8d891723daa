// Made by `rust/erase` of `crates/ndarray_layout_c/src/index_reasons.rt`: edit that.
//! Why a list is no index of a shape.

use crate::ndarray_layout_c::reasons::{COORDINATE, COORDINATES, COUNT, Reason, no_reason, of_axis, of_list};
use crate::ndarray_layout_c::statuses::{OK, OUT_OF_BOUNDS};
use crate::unwritten::MaybeUninit;

/// Whether the coordinate of an axis is none of it.
///
/// <details><summary>Contract (proved)</summary>
///
/// ```text
/// requires axis: axis < length shape.now
/// requires same_count: length index.now ≡ length shape.now
/// ensures result ≡ is_outside shape.now index.now axis
/// ```
/// [How to read it](ndarray_layout::contracts)
/// </details>
fn is_outside(shape: &[usize], index: &[usize], axis: usize) -> bool {
    shape[axis] <= index[axis]
}

/// Why a list is no index of a shape.
///
/// <details><summary>Contract (proved)</summary>
///
/// ```text
/// ensures result ≡ index_reason shape.now index.now
/// ```
/// [How to read it](ndarray_layout::contracts)
/// </details>
fn index_reason(shape: &[usize], index: &[usize]) -> Reason {
    if index.len() != shape.len() {
        let (count, ndim) = (index.len(), shape.len());
        return of_list(OUT_OF_BOUNDS, COUNT, COORDINATES, 0, count, ndim);
    }
    for axis in 0..shape.len() {
        if is_outside(shape, index, axis) {
            return of_axis(OUT_OF_BOUNDS, COORDINATE, axis, 0, index[axis], shape[axis]);
        }
    }
    no_reason()
}

/// Writes why a list is no index of a shape.
///
/// <details><summary>Contract (proved)</summary>
///
/// ```text
/// ensures status: result ≡ ok
/// ensures reason: reason.new ≡ index_reason shape.now index.now
/// ensures agrees: reason.new.status ≡ status_of (index_fault shape.now index.now)
/// ```
/// [How to read it](ndarray_layout::contracts)
/// </details>
pub fn nd_index_reason(shape: &[usize], index: &[usize], reason: &mut MaybeUninit<Reason>) -> i32 {
    reason.write(index_reason(shape, index));
    OK
}

pub mod exported {
    use super::*;

    /// # Safety
    ///
    /// Each pointer is aligned and leads to as many items as its count says. That of an empty list isn't looked at.
    #[unsafe(no_mangle)]
    pub unsafe extern "C" fn nd_index_reason(
        shape: *const usize,
        shape_count: usize,
        index: *const usize,
        index_count: usize,
        reason: *mut MaybeUninit<Reason>,
    ) -> i32 {
        unsafe {
            super::nd_index_reason(
                if shape_count == 0 { &[] } else { ::core::slice::from_raw_parts(shape, shape_count) },
                if index_count == 0 { &[] } else { ::core::slice::from_raw_parts(index, index_count) },
                &mut *reason,
            )
        }
    }
}
