// Made by `rust/erase` of `crates/example_callers/src/items.rt`: edit that.
//! A loop over the items of an array, for each of which something is counted.

use ::ndarray_layout::Lengths;
use ::ndarray_layout::nd_owned::OwnedArray;

/// How many pixels of a picture are darker than a bound, by their copies. No memory is taken for any.
///
/// <details><summary>Contract (proved)</summary>
///
/// ```text
/// ensures result ≡ count_by
///     (λ pixel. option_map_or (λ value. nat_lt value bound) pixel false)
///     (map (item_at_place picture.now.items) (view_places RowMajor picture.now.view))
/// ```
/// [How to read it](ndarray_layout::contracts)
/// </details>
pub fn count_dark_pixels<D: Lengths>(picture: &OwnedArray<u8, D>, bound: u8) -> usize {
    picture.iter().filter(|pixel| *pixel < bound).count()
}
