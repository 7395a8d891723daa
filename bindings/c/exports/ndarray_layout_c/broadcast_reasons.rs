// Made by `rust/erase` of `crates/ndarray_layout_c/src/broadcast_reasons.rt`: edit that.
//! Why two shapes have none in common, and why a layout of a shape can't be read as one of another.

use crate::ndarray_layout_c::reasons::{COMMON, COUNT, Reason, SIZE, STRETCH, TARGET, no_reason, of_axis, of_list};
use crate::ndarray_layout_c::sizes::times_lengths;
use crate::ndarray_layout_c::statuses::{INCOMPATIBLE_SHAPE, OK, OVERFLOW};
use crate::unwritten::MaybeUninit;

/// The length of an axis of a shape, padded with lengths of 1 in front up to so many axes.
///
/// <details><summary>Contract (proved)</summary>
///
/// ```text
/// requires fewer: length shape.now ≤ count
/// requires axis: axis < count
/// ensures result ≡ padded_length count shape.now axis
/// ```
/// [How to read it](ndarray_layout::contracts)
/// </details>
fn padded_length(count: usize, shape: &[usize], axis: usize) -> usize {
    let ones = count - shape.len();
    if axis < ones { 1 } else { shape[axis - ones] }
}

/// Whether the lengths that two shapes have at an axis, of so many, have none in common.
///
/// <details><summary>Contract (proved)</summary>
///
/// ```text
/// requires first: length first.now ≤ count
/// requires second: length second.now ≤ count
/// requires axis: axis < count
/// ensures result ≡ is_apart count first.now second.now axis
/// ```
/// [How to read it](ndarray_layout::contracts)
/// </details>
fn is_apart(count: usize, first: &[usize], second: &[usize], axis: usize) -> bool {
    let one = padded_length(count, first, axis);
    let other = padded_length(count, second, axis);
    one != other && one != 1 && other != 1
}

/// Why two shapes have none in common.
///
/// <details><summary>Contract (proved)</summary>
///
/// ```text
/// ensures result ≡ co_broadcast_reason first.now second.now
/// ```
/// [How to read it](ndarray_layout::contracts)
/// </details>
fn co_broadcast_reason(first: &[usize], second: &[usize]) -> Reason {
    let count = first.len().max(second.len());
    for axis in 0..count {
        if is_apart(count, first, second, axis) {
            let one = padded_length(count, first, axis);
            let other = padded_length(count, second, axis);
            return of_axis(INCOMPATIBLE_SHAPE, COMMON, axis, 0, one, other);
        }
    }
    no_reason()
}

/// Writes why two shapes have none in common.
///
/// <details><summary>Contract (proved)</summary>
///
/// ```text
/// ensures status: result ≡ ok
/// ensures reason: reason.new ≡ co_broadcast_reason first.now second.now
/// ensures agrees: reason.new.status ≡ status_of (common_shape_fault first.now second.now)
/// ```
/// [How to read it](ndarray_layout::contracts)
/// </details>
pub fn nd_co_broadcast_reason(first: &[usize], second: &[usize], reason: &mut MaybeUninit<Reason>) -> i32 {
    reason.write(co_broadcast_reason(first, second));
    OK
}

/// Whether the length that a shape has at an axis of another one is neither 1 nor that of the other.
///
/// <details><summary>Contract (proved)</summary>
///
/// ```text
/// requires fewer: length shape.now ≤ length target.now
/// requires axis: axis < length target.now
/// ensures result ≡ is_fixed shape.now target.now axis
/// ```
/// [How to read it](ndarray_layout::contracts)
/// </details>
fn is_fixed(shape: &[usize], target: &[usize], axis: usize) -> bool {
    let len = padded_length(target.len(), shape, axis);
    len != 1 && len != target[axis]
}

/// Why a layout of a shape can't be read as one of another.
///
/// <details><summary>Contract (proved)</summary>
///
/// ```text
/// ensures result ≡ broadcast_reason shape.now target.now
/// ```
/// [How to read it](ndarray_layout::contracts)
/// </details>
fn broadcast_reason(shape: &[usize], target: &[usize]) -> Reason {
    let count = target.len();
    if count < shape.len() {
        return of_list(INCOMPATIBLE_SHAPE, COUNT, TARGET, 0, count, shape.len());
    }
    for axis in 0..count {
        if is_fixed(shape, target, axis) {
            let len = padded_length(count, shape, axis);
            return of_axis(INCOMPATIBLE_SHAPE, STRETCH, axis, 0, len, target[axis]);
        }
    }
    if times_lengths(1, target).is_none() {
        return of_axis(OVERFLOW, SIZE, 0, 0, 0, 0);
    }
    no_reason()
}

/// Writes why a layout of a shape can't be read as one of another.
///
/// <details><summary>Contract (proved)</summary>
///
/// ```text
/// ensures status: result ≡ ok
/// ensures reason: reason.new ≡ broadcast_reason shape.now target.now
/// ensures agrees: reason.new.status ≡ status_of (broadcast_fault target.now shape.now)
/// ```
/// [How to read it](ndarray_layout::contracts)
/// </details>
pub fn nd_broadcast_reason(shape: &[usize], target: &[usize], reason: &mut MaybeUninit<Reason>) -> i32 {
    reason.write(broadcast_reason(shape, target));
    OK
}

pub mod exported {
    use super::*;

    /// # Safety
    ///
    /// Each pointer is aligned and leads to as many items as its count says. That of an empty list isn't looked at.
    #[unsafe(no_mangle)]
    pub unsafe extern "C" fn nd_co_broadcast_reason(
        first: *const usize,
        first_count: usize,
        second: *const usize,
        second_count: usize,
        reason: *mut MaybeUninit<Reason>,
    ) -> i32 {
        unsafe {
            super::nd_co_broadcast_reason(
                if first_count == 0 { &[] } else { ::core::slice::from_raw_parts(first, first_count) },
                if second_count == 0 { &[] } else { ::core::slice::from_raw_parts(second, second_count) },
                &mut *reason,
            )
        }
    }

    /// # Safety
    ///
    /// Each pointer is aligned and leads to as many items as its count says. That of an empty list isn't looked at.
    #[unsafe(no_mangle)]
    pub unsafe extern "C" fn nd_broadcast_reason(
        shape: *const usize,
        shape_count: usize,
        target: *const usize,
        target_count: usize,
        reason: *mut MaybeUninit<Reason>,
    ) -> i32 {
        unsafe {
            super::nd_broadcast_reason(
                if shape_count == 0 { &[] } else { ::core::slice::from_raw_parts(shape, shape_count) },
                if target_count == 0 { &[] } else { ::core::slice::from_raw_parts(target, target_count) },
                &mut *reason,
            )
        }
    }
}
