// Made by `rust/erase` of `crates/example_callers/src/slices.rt`: edit that.
//! Slices a picture, and copies the pixels that are left.

use ::ndarray_layout::memory::AllocError;
use ::ndarray_layout::memory::prelude::{FallibleVec, Vec};
use ::ndarray_layout::nd_owned::ArrayView;
use ::ndarray_layout::{Fit, Ix2, LayoutError, Lengths, Slice, SliceInfoElem};

/// Every other row of a picture, from the last one up.
///
/// Errors: those of `check_slice`, of which a shape of two axes has none. Two axes need no memory.
///
/// <details><summary>Contract (proved)</summary>
///
/// ```text
/// ensures fault: shape_fault result ≡ argument_fault Strict picture.now.view.shape
///     (SliceInfoElem.Slice (pos 0) None (negsuc 1)
///     ∷ SliceInfoElem.Slice (pos 0) None (pos 1) ∷ [])
/// ensures memory: shape_fault result ≡ None → IsOk result
/// ensures pixels: IfOk result (λ rows. (i j : ℕ) →
///     IsTrue (is_index rows.view.shape (i ∷ j ∷ [])) → item_at rows (i ∷ j ∷ []) ≡
///     item_at picture.now ((slice_index picture.now.view.shape 0 - 1 - 2 * i) ∷ j ∷ []))
/// ```
/// [How to read it](ndarray_layout::contracts)
/// </details>
pub fn alternate_rows<'a>(picture: &ArrayView<'a, u8, Ix2>) -> Result<ArrayView<'a, u8, Ix2>, LayoutError> {
    let part: [SliceInfoElem; 2] = [Slice::new(0, None, -2).into(), (..).into()];
    let rows = picture.slice_with(&part, Fit::Strict)?;
    Ok(rows)
}

/// Copies of the pixels of a picture, in row-major order.
///
/// Errors: out of memory; none where the picture has no index.
///
/// <details><summary>Contract (proved)</summary>
///
/// ```text
/// ensures copies: IfOk result (λ copies. map Some copies.items ≡
///     map (item_at_place picture.now.items) (view_places RowMajor picture.now.view))
/// ensures memory: size picture.now.view.shape ≡ 0 → IsOk result
/// ```
/// [How to read it](ndarray_layout::contracts)
/// </details>
pub fn pixels_of<D: Lengths>(picture: &ArrayView<'_, u8, D>) -> Result<Vec<u8>, AllocError> {
    let mut copies = Vec::fallible_with_capacity(picture.len())?;
    for pixel in picture.iter() {
        copies.push_reserved(*pixel);
    }
    Ok(copies)
}
