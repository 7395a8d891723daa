// Made by `rust/erase` of `crates/example_callers/src/places.rt`: edit that.
//! Lays out data, and reads a place of it.

use ::ndarray_layout::{CanIndexCheckMode, Ix2, Lengths, NdIndex, ShapeError, Strided, new_ix2};

/// A picture whose pixels lie row after row in a list.
///
/// Errors: those of `can_index_slice`: `Overflow` where the layout is too large, then `OutOfBounds` where it spans more than
/// the list, as 0 rows of 5 columns do over an empty one.
///
/// <details><summary>Contract (proved)</summary>
///
/// ```text
/// ensures fault: result_err result ≡ acceptance 1 (length pixels.now) OwnedMutable
///     (rows ∷ columns ∷ []) (all_signed (columns ∷ 1 ∷ []))
/// ensures shape: IfOk result (λ picture. picture.shape ≡ rows ∷ columns ∷ [])
/// ensures place: IfOk result (λ picture. (row column : ℕ) →
///     place_at picture (row ∷ column ∷ []) ≡ pos (row * columns + column))
/// ensures distinct: IfOk result (λ picture. HasDistinctPlaces picture)
/// ensures in_bounds: IfOk result (λ picture. LiesWithin (length pixels.now) picture)
/// ```
/// [How to read it](ndarray_layout::contracts)
/// </details>
pub fn picture(pixels: &[u8], rows: usize, columns: usize) -> Result<Strided<Ix2>, ShapeError> {
    let (shape, strides) = (new_ix2(rows, columns), new_ix2(columns, 1));
    let mode = CanIndexCheckMode::OwnedMutable;
    let view = Strided::new(shape, strides, 1, pixels.len(), mode)?;
    Ok(view)
}

/// The pixel at an index of a view, or `None` where it is no index of the shape.
///
/// <details><summary>Contract (proved)</summary>
///
/// ```text
/// requires LiesWithin (length pixels.now) view.now
/// ensures found: IsSome result ↔ IsTrue (is_index view.now.shape (I.index_list index.now))
/// ensures pixel: IfSome result (λ pixel. Some pixel ≡
///     slice_get pixels.now (magnitude (place_at view.now (I.index_list index.now))))
/// ```
/// [How to read it](ndarray_layout::contracts)
/// </details>
pub fn pixel<D: Lengths, I: NdIndex<D>>(pixels: &[u8], view: &Strided<D>, index: &I) -> Option<u8> {
    let place = view.place(index)?;
    Some(pixels[place])
}
