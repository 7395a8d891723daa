// Made by `rust/erase` of `crates/example_callers/src/histograms.rt`: edit that.
//! How often a picture has each value of a pixel.

use ::ndarray_layout::Lengths;
use ::ndarray_layout::nd_owned::ArrayView;

/// How many pixels of a picture have each value: item 7 is the count of those that are 7. Takes no memory.
///
/// <details><summary>Contract (proved)</summary>
///
/// ```text
/// ensures (value : ℕ) → value < 256 → slice_index result value ≡ count_by
///     (λ pixel. option_map_or (nat_eq value) pixel false)
///     (map (item_at_place picture.now.items) (view_places RowMajor picture.now.view))
/// ```
/// [How to read it](ndarray_layout::contracts)
/// </details>
pub fn histogram<D: Lengths>(picture: &ArrayView<'_, u8, D>) -> [usize; 256] {
    let mut counts = [0; 256];
    for pixel in picture.iter() {
        counts[usize::from(*pixel)] += 1;
    }
    counts
}
