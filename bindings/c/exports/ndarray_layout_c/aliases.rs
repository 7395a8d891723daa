// Made by `rust/erase` of `crates/ndarray_layout_c/src/aliases.rt`: edit that.
//! The axis at which a layout breaks the no-alias rule.

use crate::ndarray_layout_c::reasons::{ALIAS, Reason, of_axis};
use crate::ndarray_layout_c::statuses::UNSUPPORTED;
use ::ndarray_layout::signed;

/// How far an axis reaches, or 0 where its stride is of a magnitude past `magnitude`.
///
/// <details><summary>Contract (proved)</summary>
///
/// ```text
/// requires reach len (signed_reading stride) ≤ limit
/// ensures result ≡ span_up_to magnitude (len ∷ []) (signed_reading stride ∷ [])
/// ```
/// [How to read it](ndarray_layout::contracts)
/// </details>
fn reach_up_to(len: usize, stride: usize, magnitude: usize) -> usize {
    let stride = signed(stride).unsigned_abs();
    if stride <= magnitude { len.saturating_sub(1) * stride } else { 0 }
}

/// How far the axes reach together whose strides are of magnitude at most `magnitude`.
///
/// <details><summary>Contract (proved)</summary>
///
/// ```text
/// requires same_count: length shape.now ≡ length strides.now
/// requires span_fits: span shape.now (all_signed strides.now) ≤ limit
/// ensures result ≡ span_up_to magnitude shape.now (all_signed strides.now)
/// ```
/// [How to read it](ndarray_layout::contracts)
/// </details>
fn span_up_to(shape: &[usize], strides: &[usize], magnitude: usize) -> usize {
    let mut total = 0usize;
    for axis in 0..shape.len() {
        let far = reach_up_to(shape[axis], strides[axis], magnitude);
        total += far;
    }
    total
}

/// How far all axes but one reach together, of those whose strides are no longer than its own, which is of a magnitude.
///
/// <details><summary>Contract (proved)</summary>
///
/// ```text
/// requires axis: axis < length shape.now
/// requires same_count: length shape.now ≡ length strides.now
/// requires span_fits: span shape.now (all_signed strides.now) ≤ limit
/// ensures result ≡ span_up_to magnitude (remove shape.now axis) (remove (all_signed strides.now) axis)
/// ```
/// [How to read it](ndarray_layout::contracts)
/// </details>
fn span_of_others(shape: &[usize], strides: &[usize], axis: usize, magnitude: usize) -> usize {
    let all = span_up_to(shape, strides, magnitude);
    let own = reach_up_to(shape[axis], strides[axis], magnitude);
    all - own
}

/// Why a layout breaks the no-alias rule, at the first axis that does.
///
/// <details><summary>Contract (proved)</summary>
///
/// ```text
/// requires same_count: length shape.now ≡ length strides.now
/// requires span_fits: span shape.now (all_signed strides.now) ≤ limit
/// ensures result ≡ alias_reason shape.now (all_signed strides.now)
/// ```
/// [How to read it](ndarray_layout::contracts)
/// </details>
pub(crate) fn alias_reason(shape: &[usize], strides: &[usize]) -> Option<Reason> {
    for axis in 0..shape.len() {
        let stride = signed(strides[axis]);
        let magnitude = stride.unsigned_abs();
        let others = span_of_others(shape, strides, axis, magnitude);
        if shape[axis] > 1 && magnitude <= others {
            return Some(of_axis(UNSUPPORTED, ALIAS, axis, stride, others, 0));
        }
    }
    None
}
