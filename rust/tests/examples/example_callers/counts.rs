// Made by `rust/erase` of `crates/example_callers/src/counts.rt`: edit that.
//! A loop over the indices of a picture, for each of which something is counted.

use ::ndarray_layout::memory::AllocError;
use ::ndarray_layout::nd_owned::ArrayView;
use ::ndarray_layout::{Dimension, Ix2, all_indices};

/// How many indices of a picture have a pixel of at least this brightness, by a loop over the indices. Two axes need no memory.
///
/// <details><summary>Contract (proved)</summary>
///
/// ```text
/// ensures count: IfOk result (λ count. count ≡ count_by
///     (λ index. option_map_or (λ pixel. nat_le least pixel) (item_at picture.now index) false)
///     (indices_in RowMajor picture.now.view.shape))
/// ensures memory: IsOk result
/// ```
/// [How to read it](ndarray_layout::contracts)
/// </details>
pub fn count_bright(picture: &ArrayView<'_, u8, Ix2>, least: u8) -> Result<usize, AllocError> {
    let mut count = 0;
    for index in all_indices(picture.strided().dim().into_pattern())? {
        if picture.get(&index).is_some_and(|pixel| *pixel >= least) {
            count += 1;
        }
    }
    Ok(count)
}
