// Made by `rust/erase` of `crates/example_callers/src/crops.rt`: edit that.
//! Parts of a picture by bounds.

use ::ndarray_layout::nd_owned::ArrayView;
use ::ndarray_layout::{Dimension, Ix2, new_ix2};
use core::ops::Range;

/// The part of a picture between some rows and some columns; `None` where they aren't rows and columns of it.
///
/// <details><summary>Contract (proved)</summary>
///
/// ```text
/// ensures found: IsSome result ↔ RangesFit picture.now.view.shape
///     (rows.start ∷ columns.start ∷ []) (rows.end ∷ columns.end ∷ [])
/// ensures shape: IfSome result (λ crop. crop.view.shape ≡
///     (rows.end - rows.start) ∷ (columns.end - columns.start) ∷ [])
/// ensures pixels: IfSome result (λ crop. (i j : ℕ) →
///     IsTrue (is_index crop.view.shape (i ∷ j ∷ [])) → item_at crop (i ∷ j ∷ []) ≡
///     item_at picture.now ((i + rows.start) ∷ (j + columns.start) ∷ []))
/// ```
/// [How to read it](ndarray_layout::contracts)
/// </details>
pub fn crop<'a>(
    picture: &ArrayView<'a, u8, Ix2>,
    rows: Range<usize>,
    columns: Range<usize>,
) -> Option<ArrayView<'a, u8, Ix2>> {
    let starts = new_ix2(rows.start, columns.start);
    let ends = new_ix2(rows.end, columns.end);
    picture.crop(&starts, &ends)
}

/// Some rows of a picture, whole; `None` where they aren't rows of it.
///
/// <details><summary>Contract (proved)</summary>
///
/// ```text
/// ensures found: IsSome result ↔ RangesFit picture.now.view.shape
///     (rows.start ∷ 0 ∷ []) (rows.end ∷ slice_index picture.now.view.shape 1 ∷ [])
/// ensures shape: IfSome result (λ band. band.view.shape ≡
///     (rows.end - rows.start) ∷ slice_index picture.now.view.shape 1 ∷ [])
/// ensures pixels: IfSome result (λ band. (i j : ℕ) →
///     IsTrue (is_index band.view.shape (i ∷ j ∷ [])) → item_at band (i ∷ j ∷ []) ≡
///     item_at picture.now ((i + rows.start) ∷ j ∷ []))
/// ```
/// [How to read it](ndarray_layout::contracts)
/// </details>
pub fn band<'a>(picture: &ArrayView<'a, u8, Ix2>, rows: Range<usize>) -> Option<ArrayView<'a, u8, Ix2>> {
    let (_all, columns) = picture.dim().into_pattern();
    let band = crop(picture, rows, 0..columns)?;
    Some(band)
}
