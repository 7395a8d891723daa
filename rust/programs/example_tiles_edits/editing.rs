// Made by `rust/erase` of `crates/example_tiles_edits/src/editing.rt`: edit that.
//! Edits of pictures: one view after another, and then each pixel once.

use crate::example_tiles_edits::edit::{Edit, Misfit};
use crate::example_tiles_edits::picture::{Extent, Picture};
use ::ndarray_layout::memory::AllocError;
use ::ndarray_layout::memory::prelude::{FallibleVec, Vec};
use ::ndarray_layout::{CanIndexCheckMode, Ix2, Order, StrideShape, Strided, Strides, new_ix2};

/// Why a picture was not edited.
#[derive(Clone, Copy, Debug, PartialEq, Eq)]
pub enum EditError {
    /// An edit doesn't fit.
    Misfit(Misfit),
    /// An allocation failed.
    Memory,
}

impl ::core::fmt::Display for EditError {
    fn fmt(&self, f: &mut ::core::fmt::Formatter<'_>) -> ::core::fmt::Result {
        match self {
            Self::Misfit(value) => ::core::fmt::Display::fmt(value, f),
            Self::Memory => ::core::write!(f, "out of memory"),
        }
    }
}

impl ::core::error::Error for EditError {}

impl From<Misfit> for EditError {
    fn from(misfit: Misfit) -> Self {
        EditError::Misfit(misfit)
    }
}

impl From<AllocError> for EditError {
    fn from(_error: AllocError) -> Self {
        EditError::Memory
    }
}

/// The view of all pixels of an extent, row by row.
///
/// <details><summary>Contract (proved)</summary>
///
/// ```text
/// requires pixel_count extent < 2 ^ 63
/// ensures view: result ≡ whole_view extent
/// ensures in_bounds: LiesWithin (pixel_count extent) result
/// ```
/// [How to read it](ndarray_layout::contracts)
/// </details>
fn whole_view(extent: Extent) -> Strided<Ix2> {
    let shape = StrideShape { dim: new_ix2(extent.rows as usize, extent.columns as usize), strides: Strides::C };
    let (len, mode) = (extent.pixel_count(), CanIndexCheckMode::ReadOnly);
    let Ok(view) = Strided::from_shape(shape, 1, len, mode) else {
        unreachable!();
    };
    view
}

/// The extent that edits leave of another, and the view of its pixels; or else the first edit that doesn't fit.
///
/// <details><summary>Contract (proved)</summary>
///
/// ```text
/// requires view.shape ≡ shape_of extent
/// ensures left: MatchResult result
///     (λ left. (first_misfit edits.now extent ≡ None) × Leave edits.now extent view left.0 left.1)
///     (λ misfit. first_misfit edits.now extent ≡ Some misfit)
/// ensures in_bounds: IfOk result (λ left. (len : ℕ) → LiesWithin len view → LiesWithin len left.1)
/// ```
/// [How to read it](ndarray_layout::contracts)
/// </details>
fn view_after(extent: Extent, view: Strided<Ix2>, edits: &[Edit]) -> Result<(Extent, Strided<Ix2>), Misfit> {
    let (mut extent, mut view) = (extent, view);
    for (at, edit) in edits.iter().enumerate() {
        let misfit = Misfit { number: at + 1, edit: *edit, extent };
        (extent, view) = edit.slice(extent, &view).ok_or(misfit)?;
    }
    Ok((extent, view))
}

/// The pixels at places of a list, in the order of the places.
///
/// <details><summary>Contract (proved)</summary>
///
/// ```text
/// requires All (λ place. place < length pixels.now) places.now
/// ensures IfOk result (λ found. map Some found.items ≡ map (slice_get pixels.now) places.now)
/// ```
/// [How to read it](ndarray_layout::contracts)
/// </details>
fn pixels_at(pixels: &[u8], places: &[usize]) -> Result<Vec<u8>, AllocError> {
    let mut found = Vec::fallible_with_capacity(places.len())?;
    for place in places {
        found.push_reserved(pixels[*place]);
    }
    Ok(found)
}

/// The picture that edits make of another, one after another: each pixel is the one of the source that they name.
///
/// Errors: the first edit that doesn't fit; out of memory.
///
/// <details><summary>Contract (proved)</summary>
///
/// ```text
/// ensures misfit: misfit_of result ≡ first_misfit edits.now picture.now.extent
/// ensures edited: IfOk result (λ made. IsEdited edits.now picture.now made)
/// ```
/// [How to read it](ndarray_layout::contracts)
/// </details>
pub fn edited(picture: &Picture, edits: &[Edit]) -> Result<Picture, EditError> {
    let whole = whole_view(picture.extent);
    let (extent, view) = view_after(picture.extent, whole, edits)?;
    let places = view.places(Order::RowMajor)?;
    let pixels = pixels_at(picture.pixels.as_slice(), places.as_slice())?;
    Ok(Picture { extent, white: picture.white, pixels })
}
