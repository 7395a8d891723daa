// Made by `rust/erase` of `crates/nd_shape/src/layout_start.rt`: edit that.
//! Where the indices of a layout lie from its first index.

use crate::nd_base::{Lengths, signed};
use crate::nd_shape::size_limits::reach;

/// The distance in elements from the lowest place of an axis to its first coordinate.
///
/// <details><summary>Contract (proved)</summary>
///
/// ```text
/// requires reach_down_of_axis len (signed_reading stride) ≤ limit
/// ensures result ≡ reach_down_of_axis len (signed_reading stride)
/// ```
/// [How to read it](crate::contracts)
/// </details>
#[inline(always)]
fn reach_down(len: usize, stride: usize) -> usize {
    let stride = signed(stride);
    if stride < 0 { reach(len, stride) } else { 0 }
}

/// The distance from the lowest address of a layout to element (0, .., 0), in elements.
///
/// `shape` and `strides` are one number for each axis, strides in elements and with their sign (`signed`).
///
/// Takes time in proportion to the count of axes.
///
/// `[2,3]` with the strides `[-3,1]`: 3. The rule over lists of ndarray's
/// `offset_from_low_addr_ptr_to_logical_ptr`.
///
/// # Conditions
///
/// The caller ensures that the span is at most `isize::MAX` (`span_of_lengths`). Otherwise this call or a later one
/// panics or returns unspecified values.
///
/// <details><summary>Contract (proved)</summary>
///
/// ```text
/// requires span shape.now (all_signed strides.now) ≤ limit
/// ensures result ≡ low_span_of_layout shape.now (all_signed strides.now)
/// ```
/// [How to read it](crate::contracts)
/// </details>
#[must_use]
#[inline(always)]
pub fn low_span(shape: &[usize], strides: &[usize]) -> usize {
    let mut total = 0usize;
    for (len, stride) in shape.iter().zip(strides) {
        total += reach_down(*len, *stride);
    }
    total
}

/// The distance from the lowest address of a layout to element (0, .., 0), in elements, as
/// `low_span` returns it; `dim` has the lengths and `strides` the strides.
///
/// Takes time in proportion to the count of axes.
///
/// `[2,3]` with the strides `[-3,1]`: 3. ndarray's `offset_from_low_addr_ptr_to_logical_ptr`.
///
/// # Conditions
///
/// The caller ensures that the layout is valid (`max_abs_offset_check_overflow`). Otherwise this call or a later one
/// panics or returns unspecified values.
///
/// <details><summary>Contract (proved)</summary>
///
/// ```text
/// requires IsValidLayout (D.list dim.now) (all_signed (D.list strides.now))
/// ensures result ≡ low_span_of_layout (D.list dim.now) (all_signed (D.list strides.now))
/// ```
/// [How to read it](crate::contracts)
/// </details>
#[inline]
#[must_use]
pub fn offset_from_low_addr_ptr_to_logical_ptr<D: Lengths>(dim: &D, strides: &D) -> usize {
    low_span(dim.slice(), strides.slice())
}
