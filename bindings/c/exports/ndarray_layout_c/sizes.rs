// Made by `rust/erase` of `crates/ndarray_layout_c/src/sizes.rt`: edit that.
//! Products of lengths that are not 0, up to the limit.

use ::ndarray_layout::{new_ix2, size_of_shape_checked};

/// A number that is not 0, times a length, unless this is 0, where that is within the limit.
///
/// <details><summary>Contract (proved)</summary>
///
/// ```text
/// requires some: 0 < number
/// requires fits: number ≤ limit
/// ensures SomeIff result (number * nonzero_size (len ∷ []) ≤ limit) (number * nonzero_size (len ∷ []))
/// ```
/// [How to read it](ndarray_layout::contracts)
/// </details>
pub(crate) fn times(number: usize, len: usize) -> Option<usize> {
    if len == 0 {
        return Some(number);
    }
    size_of_shape_checked(&new_ix2(number, len)).ok()
}

/// A number that is not 0, times the lengths that are not 0, where that is within the limit.
///
/// <details><summary>Contract (proved)</summary>
///
/// ```text
/// requires some: 0 < number
/// requires fits: number ≤ limit
/// ensures SomeIff result (number * nonzero_size lens.now ≤ limit) (number * nonzero_size lens.now)
/// ```
/// [How to read it](ndarray_layout::contracts)
/// </details>
pub(crate) fn times_lengths(number: usize, lens: &[usize]) -> Option<usize> {
    let mut product = number;
    for len in lens {
        product = times(product, *len)?;
    }
    Some(product)
}
