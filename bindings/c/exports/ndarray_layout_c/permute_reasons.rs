// Made by `rust/erase` of `crates/ndarray_layout_c/src/permute_reasons.rt`: edit that.
//! Why a list of axes is no order of the axes of a shape.

use crate::ndarray_layout_c::reasons::{AXES, COUNT, MISSING, Reason, no_reason, of_axis, of_list};
use crate::ndarray_layout_c::statuses::{INCOMPATIBLE_SHAPE, OK};
use crate::unwritten::MaybeUninit;

/// Whether an axis is listed.
///
/// <details><summary>Contract (proved)</summary>
///
/// ```text
/// ensures result ≡ is_listed axes.now axis
/// ```
/// [How to read it](ndarray_layout::contracts)
/// </details>
fn is_listed(axes: &[usize], axis: usize) -> bool {
    axes.contains(&axis)
}

/// Why a list is no order of the axes of a shape.
///
/// <details><summary>Contract (proved)</summary>
///
/// ```text
/// ensures result ≡ permute_reason shape.now axes.now
/// ```
/// [How to read it](ndarray_layout::contracts)
/// </details>
fn permute_reason(shape: &[usize], axes: &[usize]) -> Reason {
    let ndim = shape.len();
    for axis in 0..ndim {
        if !is_listed(axes, axis) {
            return of_axis(INCOMPATIBLE_SHAPE, MISSING, axis, 0, axes.len(), ndim);
        }
    }
    if axes.len() != ndim {
        return of_list(INCOMPATIBLE_SHAPE, COUNT, AXES, 0, axes.len(), ndim);
    }
    no_reason()
}

/// Writes why a list is no order of the axes of a shape.
///
/// <details><summary>Contract (proved)</summary>
///
/// ```text
/// ensures status: result ≡ ok
/// ensures reason: reason.new ≡ permute_reason shape.now axes.now
/// ensures agrees: reason.new.status ≡ status_of (permute_fault shape.now axes.now)
/// ```
/// [How to read it](ndarray_layout::contracts)
/// </details>
pub fn nd_permuted_axes_reason(shape: &[usize], axes: &[usize], reason: &mut MaybeUninit<Reason>) -> i32 {
    reason.write(permute_reason(shape, axes));
    OK
}

pub mod exported {
    use super::*;

    /// # Safety
    ///
    /// Each pointer is aligned and leads to as many items as its count says. That of an empty list isn't looked at.
    #[unsafe(no_mangle)]
    pub unsafe extern "C" fn nd_permuted_axes_reason(
        shape: *const usize,
        shape_count: usize,
        axes: *const usize,
        axes_count: usize,
        reason: *mut MaybeUninit<Reason>,
    ) -> i32 {
        unsafe {
            super::nd_permuted_axes_reason(
                if shape_count == 0 { &[] } else { ::core::slice::from_raw_parts(shape, shape_count) },
                if axes_count == 0 { &[] } else { ::core::slice::from_raw_parts(axes, axes_count) },
                &mut *reason,
            )
        }
    }
}
