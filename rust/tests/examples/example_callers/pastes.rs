// Made by `rust/erase` of `crates/example_callers/src/pastes.rt`: edit that.
//! A picture that is written into another one.

use ::ndarray_layout::nd_owned::{ArrayView, ArrayViewMut};
use ::ndarray_layout::{Ix2, Strided};

/// Writes the pixels of a picture at the indices of a view over others, and returns whether the shapes are the same; else the others are
/// unchanged.
///
/// <details><summary>Contract (proved)</summary>
///
/// ```text
/// requires IsOwned (length pixels.old) view
/// ensures fits: IsTrue result ↔ (view.shape ≡ picture.now.view.shape)
/// ensures assigned: IsTrue result → HasItemsOf (item_at picture.now)
///     (record { items = pixels.old; view = view })
///     (record { items = pixels.new; view = view })
/// ensures unchanged: result ≡ false → pixels.new ≡ pixels.old
/// ```
/// [How to read it](ndarray_layout::contracts)
/// </details>
fn assign_view(view: Strided<Ix2>, pixels: &mut [u8], picture: &ArrayView<'_, u8, Ix2>) -> bool {
    let mut array = ArrayViewMut::new(view, pixels);
    let assigned = array.assign(picture);
    assigned.is_ok()
}

/// Writes a picture into a part of another one, whose pixels lie in a list by a view, and returns whether it did: it
/// doesn't where the part isn't one of the other, or has another shape than the picture. Each other pixel of the list
/// is unchanged.
///
/// # Conditions
///
/// The caller ensures that each index has a pixel to itself. Otherwise this call or a later one panics or returns
/// unspecified values.
///
/// <details><summary>Contract (proved)</summary>
///
/// ```text
/// requires IsOwned (length pixels.old) view
/// ensures fits: IsTrue result ↔ (RangesFit view.shape (lengths starts.now) (lengths ends.now)
///     × ((cropped_of (lengths starts.now) (lengths ends.now) view).shape ≡ picture.now.view.shape))
/// ensures pasted: IsTrue result → HasWrittenPart (crop_source (lengths starts.now))
///     picture.now.view.shape (item_at picture.now)
///     (record { items = pixels.old; view = view })
///     (record { items = pixels.new; view = view })
/// ensures unchanged: result ≡ false → pixels.new ≡ pixels.old
/// ```
/// [How to read it](ndarray_layout::contracts)
/// </details>
pub fn paste(
    view: Strided<Ix2>,
    pixels: &mut [u8],
    starts: &Ix2,
    ends: &Ix2,
    picture: &ArrayView<'_, u8, Ix2>,
) -> bool {
    match view.crop(starts, ends) {
        Some(part) => assign_view(part, pixels, picture),
        None => false,
    }
}
