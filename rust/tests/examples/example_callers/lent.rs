// Made by `rust/erase` of `crates/example_callers/src/lent.rt`: edit that.
//! Pixels that are kept elsewhere, read and written as a picture.

use ::ndarray_layout::memory::AllocError;
use ::ndarray_layout::nd_owned::{ArrayViewMut, OwnedArray};
use ::ndarray_layout::{CanIndexCheckMode, Ix2, LayoutError, Lengths, ShapeError, StrideShape, Strided};

/// Paints each pixel of a picture, whose pixels lie in a list by the strides of its shape. The list's other pixels are
/// unchanged. Errors: those of `Strided::from_shape`; then all pixels are unchanged.
///
/// <details><summary>Contract (proved)</summary>
///
/// ```text
/// ensures painted: OnOk result (
///     let lens = D.list shape.dim in
///     let strides = strides_list D.list lens shape.strides in
///     let view = view_of (low_span lens (all_signed strides)) lens strides in
///     HasItemsOf (λ index. Some pixel)
///     (record { items = pixels.old; view = view })
///     (record { items = pixels.new; view = view }))
/// ensures unchanged: OnErr result (pixels.new ≡ pixels.old)
/// ```
/// [How to read it](ndarray_layout::contracts)
/// </details>
pub fn paint<D: Lengths>(pixels: &mut [u8], shape: StrideShape<D>, pixel: u8) -> Result<(), LayoutError> {
    let mode = CanIndexCheckMode::OwnedMutable;
    let view = Strided::from_shape(shape, 1, pixels.len(), mode)?;
    paint_view(view, pixels, pixel);
    Ok(())
}

/// Paints each pixel of a view over pixels.
///
/// <details><summary>Contract (proved)</summary>
///
/// ```text
/// requires IsOwned (length pixels.old) view
/// ensures HasItemsOf (λ index. Some pixel)
///     (record { items = pixels.old; view = view })
///     (record { items = pixels.new; view = view })
/// ```
/// [How to read it](ndarray_layout::contracts)
/// </details>
fn paint_view<D: Lengths>(view: Strided<D>, pixels: &mut [u8], pixel: u8) {
    let mut picture = ArrayViewMut::new(view, pixels);
    picture.fill(pixel);
}

/// Paints each pixel of any view over pixels, in which no two indices may have one pixel. The list's other pixels are unchanged.
/// Errors: those of `ArrayViewMut::over`.
///
/// <details><summary>Contract (proved)</summary>
///
/// ```text
/// ensures OnOk result (HasItemsOf (λ index. Some pixel)
///     (record { items = pixels.old; view = view })
///     (record { items = pixels.new; view = view }))
/// ```
/// [How to read it](ndarray_layout::contracts)
/// </details>
pub fn paint_over<D: Lengths>(view: Strided<D>, pixels: &mut [u8], pixel: u8) -> Result<(), ShapeError> {
    let mut picture = ArrayViewMut::over(view, pixels)?;
    picture.fill(pixel);
    Ok(())
}

/// Paints each pixel of a picture, as `paint` does, by one call that checks the shape and lends the pixels. Errors: those of
/// `ArrayViewMut::from_shape`.
///
/// <details><summary>Contract (proved)</summary>
///
/// ```text
/// ensures OnOk result (
///     let lens = D.list shape.dim in
///     let view = view_from_0 lens (strides_list D.list lens shape.strides) in
///     HasItemsOf (λ index. Some pixel)
///     (record { items = pixels.old; view = view })
///     (record { items = pixels.new; view = view }))
/// ```
/// [How to read it](ndarray_layout::contracts)
/// </details>
pub fn paint_shape<D: Lengths>(pixels: &mut [u8], shape: StrideShape<D>, pixel: u8) -> Result<(), LayoutError> {
    let mut picture = ArrayViewMut::from_shape(shape, pixels)?;
    picture.fill(pixel);
    Ok(())
}

/// Paints a part of a picture, whose pixels lie in a list by a view, and returns whether it did: it doesn't where the
/// part isn't one of the picture. The list's other pixels are unchanged.
///
/// # Conditions
///
/// The caller ensures that each index has a pixel to itself. Otherwise this call or a later one panics or returns
/// unspecified values.
///
/// <details><summary>Contract (proved)</summary>
///
/// ```text
/// requires IsOwned (length pixels.old) view
/// ensures fits: IsTrue result ↔ RangesFit view.shape (lengths starts.now) (lengths ends.now)
/// ensures painted: IsTrue result → HasWrittenPart (crop_source (lengths starts.now))
///     (cropped_of (lengths starts.now) (lengths ends.now) view).shape (λ index. Some pixel)
///     (record { items = pixels.old; view = view })
///     (record { items = pixels.new; view = view })
/// ensures unchanged: result ≡ false → pixels.new ≡ pixels.old
/// ```
/// [How to read it](ndarray_layout::contracts)
/// </details>
pub fn paint_part(view: Strided<Ix2>, pixels: &mut [u8], starts: &Ix2, ends: &Ix2, pixel: u8) -> bool {
    match view.crop(starts, ends) {
        Some(part) => {
            paint_view(part, pixels, pixel);
            true
        }
        None => false,
    }
}

/// Paints each pixel of a picture that owns its pixels; spare ones are unchanged. Errors: out of memory, for a copy of its view.
///
/// <details><summary>Contract (proved)</summary>
///
/// ```text
/// ensures OnOk result (HasItemsOf (λ index. Some pixel) picture.old picture.new)
/// ```
/// [How to read it](ndarray_layout::contracts)
/// </details>
pub fn paint_owned(picture: &mut OwnedArray<u8, Ix2>, pixel: u8) -> Result<(), AllocError> {
    let view = picture.strided().duplicate()?;
    paint_view(view, picture.stored_mut(), pixel);
    Ok(())
}

/// Makes each pixel of a picture brighter by 1. The picture's other pixels are unchanged.
///
/// # Conditions
///
/// The caller ensures that none is the brightest one. Otherwise this call or a later one panics or returns unspecified
/// values.
///
/// <details><summary>Contract (proved)</summary>
///
/// ```text
/// requires All (λ item. IfSome item (λ pixel. pixel < 255)) (row_major_items (array_of picture.old))
/// ensures HasItemsOf
///     (λ index. option_map (λ pixel. pixel + 1) (item_at (array_of picture.old) index))
///     (array_of picture.old) (array_of picture.new)
/// ```
/// [How to read it](ndarray_layout::contracts)
/// </details>
pub fn brighten<D: Lengths>(picture: &mut ArrayViewMut<'_, u8, D>) {
    picture.map_in_place(|pixel: &mut u8| {
        *pixel += 1;
    });
}
