// Made by `rust/erase` of `crates/example_callers/src/lights.rt`: edit that.
//! A part of a picture that is lit by another picture.

use ::ndarray_layout::Ix2;
use ::ndarray_layout::nd_owned::{ArrayView, ArrayViewMut};

/// Adds to each pixel of a part the one of the same index of another picture, up to the brightest one, 255. Returns whether the shapes are
/// the same; else the part is unchanged. Pixels beside the part are unchanged.
///
/// <details><summary>Contract (proved)</summary>
///
/// ```text
/// ensures fits: IsTrue result ↔ ((array_of part.old).view.shape ≡ light.now.view.shape)
/// ensures lit: IsTrue result → HasItemsOf
///     (zipped_at (λ pixel more. min (pixel + more) 255) (array_of part.old) light.now)
///     (array_of part.old) (array_of part.new)
/// ensures unchanged: result ≡ false → array_of part.new ≡ array_of part.old
/// ```
/// [How to read it](ndarray_layout::contracts)
/// </details>
pub fn lighten(part: &mut ArrayViewMut<'_, u8, Ix2>, light: &ArrayView<'_, u8, Ix2>) -> bool {
    part.zip_mut_with(light, |pixel: &mut u8, more: &u8| {
        *pixel = pixel.saturating_add(*more);
    })
    .is_ok()
}
