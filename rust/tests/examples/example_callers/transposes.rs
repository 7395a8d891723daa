// Made by `rust/erase` of `crates/example_callers/src/transposes.rt`: edit that.
//! Transposes a part of a picture, and reads a pixel of it by its index.

use crate::example_callers::crops::crop;
use ::ndarray_layout::Ix2;
use ::ndarray_layout::nd_owned::ArrayView;
use core::ops::Range;

/// The part of a picture between some rows and some columns, transposed: its rows are the part's columns. No pixel is
/// moved. `None` where they aren't rows and columns of it.
///
/// <details><summary>Contract (proved)</summary>
///
/// ```text
/// ensures found: IsSome result ↔ RangesFit picture.now.view.shape
///     (rows.start ∷ columns.start ∷ []) (rows.end ∷ columns.end ∷ [])
/// ensures shape: IfSome result (λ part. part.view.shape ≡
///     (columns.end - columns.start) ∷ (rows.end - rows.start) ∷ [])
/// ensures pixels: IfSome result (λ part. (i j : ℕ) →
///     IsTrue (is_index part.view.shape (i ∷ j ∷ [])) → item_at part (i ∷ j ∷ []) ≡
///     item_at picture.now ((j + rows.start) ∷ (i + columns.start) ∷ []))
/// ```
/// [How to read it](ndarray_layout::contracts)
/// </details>
pub fn transposed_part<'a>(
    picture: &ArrayView<'a, u8, Ix2>,
    rows: Range<usize>,
    columns: Range<usize>,
) -> Option<ArrayView<'a, u8, Ix2>> {
    let part = crop(picture, rows, columns)?;
    Some(part.reversed_axes())
}

/// The pixel in a row and a column of the transpose of a picture, or `None` where the transpose has no such index.
///
/// <details><summary>Contract (proved)</summary>
///
/// ```text
/// ensures pixel: result ≡ item_at picture.entry (column ∷ row ∷ [])
/// ```
/// [How to read it](ndarray_layout::contracts)
/// </details>
pub fn pixel_across(picture: ArrayView<'_, u8, Ix2>, row: usize, column: usize) -> Option<u8> {
    let across = picture.reversed_axes();
    across.get(&(row, column)).copied()
}
