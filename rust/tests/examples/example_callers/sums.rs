// Made by `rust/erase` of `crates/example_callers/src/sums.rt`: edit that.
//! The sum of the pixels of a picture, by its transpose.

use ::ndarray_layout::Lengths;
use ::ndarray_layout::nd_owned::ArrayView;

/// The sum of the pixels of a picture of any number of axes, by its transpose, which is that of the picture; `None` where it passes
/// `u64`. Takes no memory.
///
/// <details><summary>Contract (proved)</summary>
///
/// ```text
/// ensures fits: IsSome result ↔ (sum_by (λ pixel. option_map_or (λ n. n) pixel 0)
///     (map (item_at_place picture.entry.items) (view_places RowMajor picture.entry.view)) < 2 ^ 64)
/// ensures sum: IfSome result (λ total. total ≡ sum_by (λ pixel. option_map_or (λ n. n) pixel 0)
///     (map (item_at_place picture.entry.items) (view_places RowMajor picture.entry.view)))
/// ```
/// [How to read it](ndarray_layout::contracts)
/// </details>
pub fn transpose_sum<D: Lengths>(picture: ArrayView<'_, u8, D>) -> Option<u64> {
    picture.reversed_axes().sum()
}
