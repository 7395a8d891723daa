// Made by `rust/erase` of `crates/example_callers/src/blurs.rt`: edit that.
//! Blurs a picture: the mean of each window of it.

use ::ndarray_layout::memory::AllocError;
use ::ndarray_layout::memory::prelude::{FallibleVec, Vec};
use ::ndarray_layout::nd_owned::ArrayView;
use ::ndarray_layout::{Dimension, Ix2, all_indices, new_ix2};

/// The mean of the pixels of a window of three rows and three columns, rounded down. Their sum is at most 9 * 255.
///
/// <details><summary>Contract (proved)</summary>
///
/// ```text
/// requires window.now.view.shape ≡ 3 ∷ 3 ∷ []
/// ensures result ≡ sum_by (λ inner. option_map_or (λ pixel. pixel) (item_at window.now inner) 0)
///     (indices_in RowMajor (3 ∷ 3 ∷ [])) / 9
/// ```
/// [How to read it](ndarray_layout::contracts)
/// </details>
fn mean_of(window: &ArrayView<'_, u8, Ix2>) -> u8 {
    let mut sum = 0u32;
    for pixel in window.iter() {
        sum += u32::from(*pixel);
    }
    (sum / 9) as u8
}

/// The mean of the window whose first pixel is in a row and a column.
///
/// <details><summary>Contract (proved)</summary>
///
/// ```text
/// requires row: row + 2 < slice_index picture.now.view.shape 0
/// requires column: column + 2 < slice_index picture.now.view.shape 1
/// ensures result ≡ sum_by (λ inner. option_map_or (λ pixel. pixel)
///     (item_at picture.now (crop_source (row ∷ column ∷ []) inner)) 0)
///     (indices_in RowMajor (3 ∷ 3 ∷ [])) / 9
/// ```
/// [How to read it](ndarray_layout::contracts)
/// </details>
fn mean_at(picture: &ArrayView<'_, u8, Ix2>, row: usize, column: usize) -> u8 {
    let _lens = picture.dim().into_pattern();
    let (starts, ends) = (new_ix2(row, column), new_ix2(row + 3, column + 3));
    mean_of(&picture.crop(&starts, &ends).unwrap())
}

/// A picture whose pixels are the means, rounded down, of the windows of three rows and three columns of another one, row after
/// row. It has two rows and two columns less, or no pixel.
///
/// Errors: out of memory; none where there is no window.
///
/// <details><summary>Contract (proved)</summary>
///
/// ```text
/// ensures means: IfOk result (λ means. means.items ≡ map
///     (λ at. sum_by (λ inner. option_map_or (λ pixel. pixel)
///     (item_at picture.now (crop_source at inner)) 0) (indices_in RowMajor (3 ∷ 3 ∷ [])) / 9)
///     (indices_in RowMajor ((slice_index picture.now.view.shape 0 - 2)
///     ∷ (slice_index picture.now.view.shape 1 - 2) ∷ [])))
/// ensures memory: (slice_index picture.now.view.shape 0 - 2)
///     * (slice_index picture.now.view.shape 1 - 2) ≡ 0 → IsOk result
/// ```
/// [How to read it](ndarray_layout::contracts)
/// </details>
pub fn blur(picture: &ArrayView<'_, u8, Ix2>) -> Result<Vec<u8>, AllocError> {
    let (rows, columns) = picture.strided().dim().into_pattern();
    let (rows, columns) = (rows.saturating_sub(2), columns.saturating_sub(2));
    let mut means = Vec::fallible_with_capacity(rows * columns)?;
    for (row, column) in all_indices((rows, columns))? {
        means.push_reserved(mean_at(picture, row, column));
    }
    Ok(means)
}
