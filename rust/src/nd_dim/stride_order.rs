// Made by `rust/erase` of `crates/nd_dim/src/stride_order.rt`: edit that.
//! The axes in the order of their strides.

use crate::nd_dim::stride_axes::magnitude_at;

/// Writes the numbers of the axes, that of the least stride first, whatever the signs; axes of
/// equal strides stand in their own order. ndarray's `_fastest_varying_stride_order`.
///
/// <details><summary>Contract (proved)</summary>
///
/// ```text
/// requires length strides.now ≡ length order.old
/// ensures IsStrideOrder (all_signed strides.now) order.new
/// ```
/// [How to read it](crate::contracts)
/// </details>
#[inline]
pub(crate) fn fill_stride_order(strides: &[usize], order: &mut [usize]) {
    for (axis, position) in order.iter_mut().enumerate() {
        *position = axis;
    }
    order.sort_unstable_by_key(|axis| (magnitude_at(strides, *axis), *axis));
}
