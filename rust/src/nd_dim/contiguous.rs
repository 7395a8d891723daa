// Made by `rust/erase` of `crates/nd_dim/src/contiguous.rt`: edit that.
//! Which layouts fill their interval of memory without a gap.

use crate::nd_base::signed;
use crate::nd_dim::stride_axes::magnitude_at;

/// Whether the strides are those that the shape has by itself.
///
/// <details><summary>Contract (proved)</summary>
///
/// ```text
/// requires same_count: length lens.now ≡ length strides.now
/// requires size_fits: nonzero_size lens.now ≤ limit
/// ensures IsTrue result ↔ (strides.now ≡ default_strides lens.now)
/// ```
/// [How to read it](crate::contracts)
/// </details>
#[inline(always)]
fn has_default_strides(lens: &[usize], strides: &[usize]) -> bool {
    if lens.contains(&0) {
        return strides.iter().all(|stride| *stride == 0);
    }
    let mut size = 1usize;
    for axis in (0..lens.len()).rev() {
        if strides[axis] != size {
            return false;
        }
        size *= lens[axis];
    }
    true
}

/// Whether an axis has the lesser stride, whatever the signs, or an equal one and the lesser
/// number.
///
/// <details><summary>Contract (proved)</summary>
///
/// ```text
/// ensures result ≡ comes_before_axis (all_signed strides.now) axis other
/// ```
/// [How to read it](crate::contracts)
/// </details>
#[inline(always)]
fn comes_before(strides: &[usize], axis: usize, other: usize) -> bool {
    (magnitude_at(strides, axis), axis) < (magnitude_at(strides, other), other)
}

/// The product of the lengths of the axes that come before an axis.
///
/// <details><summary>Contract (proved)</summary>
///
/// ```text
/// requires nonzero_size lens.now ≤ limit
/// ensures result ≡ size (lens_before lens.now (all_signed strides.now) axis)
/// ```
/// [How to read it](crate::contracts)
/// </details>
#[inline(always)]
fn size_before(lens: &[usize], strides: &[usize], axis: usize) -> usize {
    let mut size = 1usize;
    for (other, len) in lens.iter().enumerate() {
        if comes_before(strides, other, axis) {
            size *= *len;
        }
    }
    size
}

/// Whether each axis whose length isn't 1 steps over just what the axes before it span.
///
/// <details><summary>Contract (proved)</summary>
///
/// ```text
/// requires nonzero_size lens.now ≤ limit
/// ensures result ≡ is_packed_layout lens.now (all_signed strides.now)
/// ```
/// [How to read it](crate::contracts)
/// </details>
#[inline(always)]
fn is_packed(lens: &[usize], strides: &[usize]) -> bool {
    for (axis, len) in lens.iter().enumerate() {
        if *len != 1 && magnitude_at(strides, axis) != size_before(lens, strides, axis) {
            return false;
        }
    }
    true
}

/// Whether no two indices alias and all fill an interval of memory without a gap, by a rule on lengths and strides.
/// `Dimension::is_contiguous` says the rule.
///
/// <details><summary>Contract (proved)</summary>
///
/// ```text
/// requires same_count: length lens.now ≡ length strides.now
/// requires size_fits: nonzero_size lens.now ≤ limit
/// ensures result ≡ is_contiguous_layout lens.now (all_signed strides.now)
/// ```
/// [How to read it](crate::contracts)
/// </details>
#[inline(always)]
pub(crate) fn is_contiguous(lens: &[usize], strides: &[usize]) -> bool {
    if has_default_strides(lens, strides) {
        true
    } else if lens.len() == 1 {
        lens[0] <= 1 || signed(strides[0]) == -1
    } else {
        is_packed(lens, strides)
    }
}
