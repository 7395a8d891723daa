// Made by `rust/erase` of `crates/nd_shape/src/major_order.rt`: edit that.
//! Whether the indices of a layout lie one after another.

use crate::nd_base::Lengths;
use crate::nd_dim::{Forward, Reverse, Sequence, item};

/// Whether each axis of another length than 1 has the product of the lengths before it as its
/// stride, where both sequences begin with the axis that moves fastest.
///
/// <details><summary>Contract (proved)</summary>
///
/// ```text
/// requires same_count: length (S.items lens.now) ≡ length (S.items strides.now)
/// requires some: is_empty (S.items lens.now) ≡ false
/// requires size_fits: nonzero_size (S.items lens.now) ≤ limit
/// ensures IsTrue result ↔ SatisfiesOrderRule ColumnMajor (S.items lens.now) (all_signed (S.items strides.now))
/// ```
/// [How to read it](crate::contracts)
/// </details>
#[inline(always)]
fn has_strides<S: Sequence>(lens: &S, strides: &S) -> bool {
    let mut size = 1usize;
    for k in 0..lens.len() {
        let len = item(lens, k);
        if len != 1 && item(strides, k) != size {
            return false;
        }
        size *= len;
    }
    true
}

/// Whether the places of all indices, in row-major order, follow one another without a gap, or
/// there is no index: each axis whose length isn't 1 has its stride in row-major order.
///
/// Takes time in proportion to the count of axes.
///
/// `[2,1,3]` with the strides `[3,9,1]`: true. ndarray's `is_layout_c`.
///
/// # Conditions
///
/// The caller ensures that there are as many strides as axes, and that the product of the lengths that are not 0 is at
/// most `isize::MAX` (`size_of_shape_checked`). Otherwise this call or a later one panics or returns unspecified
/// values.
///
/// <details><summary>Contract (proved)</summary>
///
/// ```text
/// requires same_count: length (D.list dim.now) ≡ length (D.list strides.now)
/// requires size_fits: nonzero_size (D.list dim.now) ≤ limit
/// ensures places: IsTrue result ↔ LiesInOrder RowMajor (D.list dim.now) (all_signed (D.list strides.now))
/// ensures rule: IsTrue result ↔ SatisfiesOrderRule RowMajor (D.list dim.now) (all_signed (D.list strides.now))
/// ```
/// [How to read it](crate::contracts)
/// </details>
#[inline]
#[must_use]
pub fn is_layout_c<D: Lengths>(dim: &D, strides: &D) -> bool {
    if dim.slice().contains(&0) {
        return true;
    }
    has_strides(&Reverse(dim.slice()), &Reverse(strides.slice()))
}

/// Whether the places of all indices, in column-major order, follow one another without a gap, or
/// there is no index: each axis whose length isn't 1 has its stride in column-major order.
///
/// Takes time in proportion to the count of axes.
///
/// `[2,1,3]` with the strides `[1,9,2]`: true. ndarray's `is_layout_f`.
///
/// # Conditions
///
/// The caller ensures that there are as many strides as axes, and that the product of the lengths that are not 0 is at
/// most `isize::MAX` (`size_of_shape_checked`). Otherwise this call or a later one panics or returns unspecified
/// values.
///
/// <details><summary>Contract (proved)</summary>
///
/// ```text
/// requires same_count: length (D.list dim.now) ≡ length (D.list strides.now)
/// requires size_fits: nonzero_size (D.list dim.now) ≤ limit
/// ensures places: IsTrue result ↔ LiesInOrder ColumnMajor (D.list dim.now) (all_signed (D.list strides.now))
/// ensures rule: IsTrue result ↔ SatisfiesOrderRule ColumnMajor (D.list dim.now) (all_signed (D.list strides.now))
/// ```
/// [How to read it](crate::contracts)
/// </details>
#[inline]
#[must_use]
pub fn is_layout_f<D: Lengths>(dim: &D, strides: &D) -> bool {
    if dim.slice().contains(&0) {
        return true;
    }
    has_strides(&Forward(dim.slice()), &Forward(strides.slice()))
}
