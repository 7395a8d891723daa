// Made by `rust/erase` of `crates/example_callers/src/tasks.rt`: edit that.
//! Tasks over a picture as a whole: its brightest and its darkest pixel, a sum, and its mirror.

use crate::example_callers::slices::pixels_of;
use ::ndarray_layout::memory::prelude::Vec;
use ::ndarray_layout::nd_owned::ArrayView;
use ::ndarray_layout::{Axis, Ix2, LayoutError, Lengths};

/// The brightest pixel of a picture; `None` where it has none.
///
/// <details><summary>Contract (proved)</summary>
///
/// ```text
/// ensures found: IsSome result ↔ (0 < size picture.now.view.shape)
/// ensures is_one: IfSome result (λ brightest. (index : List ℕ) ×
///     IsTrue (is_index picture.now.view.shape index) ×
///     (item_at picture.now index ≡ Some brightest))
/// ensures none_brighter: IfSome result (λ brightest. (index : List ℕ) →
///     IsTrue (is_index picture.now.view.shape index) →
///     option_map_or (λ pixel. pixel) (item_at picture.now index) 0 ≤ brightest)
/// ```
/// [How to read it](ndarray_layout::contracts)
/// </details>
pub fn brightest<D: Lengths>(picture: &ArrayView<'_, u8, D>) -> Option<u8> {
    picture.max()
}

/// The darkest pixel of a picture; `None` where it has none.
///
/// <details><summary>Contract (proved)</summary>
///
/// ```text
/// ensures found: IsSome result ↔ (0 < size picture.now.view.shape)
/// ensures is_one: IfSome result (λ darkest. (index : List ℕ) ×
///     IsTrue (is_index picture.now.view.shape index) ×
///     (item_at picture.now index ≡ Some darkest))
/// ensures none_darker: IfSome result (λ darkest. (index : List ℕ) →
///     IsTrue (is_index picture.now.view.shape index) →
///     IfSome (item_at picture.now index) (λ pixel. darkest ≤ pixel))
/// ```
/// [How to read it](ndarray_layout::contracts)
/// </details>
pub fn darkest<D: Lengths>(picture: &ArrayView<'_, u8, D>) -> Option<u8> {
    picture.min()
}

/// The sum of the pixels of a part of a picture; `None` where the part isn't one of it, or the sum passes `u64`.
///
/// <details><summary>Contract (proved)</summary>
///
/// ```text
/// ensures IfSome result (λ total. total ≡
///     sum_by (λ pixel. option_map_or (λ n. n) pixel 0) (map (item_at_place picture.now.items)
///     (view_places RowMajor (cropped_of (lengths starts.now) (lengths ends.now) picture.now.view))))
/// ```
/// [How to read it](ndarray_layout::contracts)
/// </details>
pub fn sum_of_crop(picture: &ArrayView<'_, u8, Ix2>, starts: &Ix2, ends: &Ix2) -> Option<u64> {
    picture.crop(starts, ends)?.sum()
}

/// Copies of the pixels of a picture as its mirror shows them: each row backwards.
///
/// Errors: `OutOfBounds` where the picture has no axis 1, then out of memory.
///
/// <details><summary>Contract (proved)</summary>
///
/// ```text
/// ensures IfOk result (λ copies. map Some copies.items ≡
///     map (λ index. item_at picture.entry (invert_source 1 picture.entry.view.shape index))
///     (indices_in RowMajor picture.entry.view.shape))
/// ```
/// [How to read it](ndarray_layout::contracts)
/// </details>
pub fn mirror<D: Lengths>(picture: ArrayView<'_, u8, D>) -> Result<Vec<u8>, LayoutError> {
    let mut picture = picture;
    picture.invert_axis(Axis(1))?;
    Ok(pixels_of(&picture)?)
}

/// Whether each pixel of a picture is darker than a bound.
///
/// <details><summary>Contract (proved)</summary>
///
/// ```text
/// ensures darker: IsTrue result → (index : List ℕ) →
///     IsTrue (is_index picture.now.view.shape index) →
///     IfSome (item_at picture.now index) (λ pixel. pixel < bound)
/// ```
/// [How to read it](ndarray_layout::contracts)
/// </details>
pub fn is_darker<D: Lengths>(picture: &ArrayView<'_, u8, D>, bound: u8) -> bool {
    picture.all(|pixel: &u8| *pixel < bound)
}

/// Whether some pixel of a picture is brighter than a bound.
///
/// <details><summary>Contract (proved)</summary>
///
/// ```text
/// ensures IsTrue result ↔ ((index : List ℕ) ×
///     IsTrue (is_index picture.now.view.shape index) ×
///     IsSomeAnd (item_at picture.now index) (λ pixel. bound < pixel))
/// ```
/// [How to read it](ndarray_layout::contracts)
/// </details>
pub fn is_brighter<D: Lengths>(picture: &ArrayView<'_, u8, D>, bound: u8) -> bool {
    picture.any(|pixel: &u8| *pixel > bound)
}

/// Whether two pictures show the same: they have the same shape, and at each index the same pixel.
///
/// <details><summary>Contract (proved)</summary>
///
/// ```text
/// ensures result ≡ are_equal nat_eq one.now other.now
/// ```
/// [How to read it](ndarray_layout::contracts)
/// </details>
pub fn show_the_same<D: Lengths>(one: &ArrayView<'_, u8, D>, other: &ArrayView<'_, u8, D>) -> bool {
    one.eq(other)
}
