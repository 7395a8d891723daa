// Made by `rust/erase` of `crates/example_callers/src/flips.rt`: edit that.
//! A picture that is turned upside down in place.

use ::ndarray_layout::memory::AllocError;
use ::ndarray_layout::nd_owned::ArrayViewMut;
use ::ndarray_layout::{Dimension, Ix2, Strided, all_indices};

/// Swaps each pixel of the upper half with the one as far from the lower end of its column.
///
/// <details><summary>Contract (proved)</summary>
///
/// ```text
/// ensures memory: IsOk result
/// ensures flipped: OnOk result (HasItemsOf
///     (λ index. item_at (array_of picture.old) (invert_source 0 (array_of picture.old).view.shape index))
///     (array_of picture.old) (array_of picture.new))
/// ensures same_right: access_of picture.new ≡ access_of picture.old
/// ```
/// [How to read it](ndarray_layout::contracts)
/// </details>
fn swap_rows(picture: &mut ArrayViewMut<'_, u8, Ix2>) -> Result<(), AllocError> {
    let (rows, columns) = picture.strided().dim().into_pattern();
    for (row, column) in all_indices((rows / 2, columns))? {
        let _ = picture.swap(&(row, column), &(rows - 1 - row, column));
    }
    Ok(())
}

/// Turns a picture upside down, whose pixels lie in a list by a view: each index has the pixel that its mirrored index
/// had. The list's other pixels are unchanged. Two axes need no memory.
///
/// # Conditions
///
/// The caller ensures that each index has a pixel to itself. Otherwise this call or a later one panics or returns
/// unspecified values.
///
/// <details><summary>Contract (proved)</summary>
///
/// ```text
/// requires IsOwned (length pixels.old) view
/// ensures memory: IsOk result
/// ensures flipped: OnOk result (HasItemsOf
///     (λ index. item_at (record { items = pixels.old; view = view }) (invert_source 0 view.shape index))
///     (record { items = pixels.old; view = view })
///     (record { items = pixels.new; view = view }))
/// ```
/// [How to read it](ndarray_layout::contracts)
/// </details>
pub fn flip(view: Strided<Ix2>, pixels: &mut [u8]) -> Result<(), AllocError> {
    let mut picture = ArrayViewMut::new(view, pixels);
    swap_rows(&mut picture)?;
    Ok(())
}
