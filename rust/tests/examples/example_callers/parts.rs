// Made by `rust/erase` of `crates/example_callers/src/parts.rt`: edit that.
//! Takes two parts of a view that can be written in any order, since they share no place.

use ::ndarray_layout::memory::prelude::Vec;
use ::ndarray_layout::{Fit, IxDyn, LayoutError, Lengths, Order, SliceElems, Strided};

/// The places of a part, which may have any number of axes.
///
/// <details><summary>Contract (proved)</summary>
///
/// ```text
/// ensures fault: shape_fault result ≡ argument_fault Strict view.now.shape (S.list part.now)
/// ensures places: IfOk result (λ places. map pos places.items ≡
///     view_places RowMajor (slice_of Strict (S.list part.now) view.now))
/// ```
/// [How to read it](ndarray_layout::contracts)
/// </details>
fn places_of<D: Lengths, S: SliceElems>(view: &Strided<D>, part: &S) -> Result<Vec<usize>, LayoutError> {
    let part: Strided<IxDyn> = view.slice(part, Fit::Strict)?;
    Ok(part.places(Order::RowMajor)?)
}

/// The places of two parts of a view, each in row-major order, or `None` where the parts share an index.
///
/// Errors: those of `check_slice` for the first part, then for the second. Then out of memory; never where the parts share
/// an index, since no place is listed.
///
/// <details><summary>Contract (proved)</summary>
///
/// ```text
/// requires HasDistinctPlaces view.now
/// ensures fault: shape_fault result ≡ option_or
///     (argument_fault Strict view.now.shape (A.list first.now))
///     (argument_fault Strict view.now.shape (B.list second.now))
/// ensures first: IfOk result (λ parts. IfSome parts (λ places. map pos places.0.items ≡
///     view_places RowMajor (slice_of Strict (A.list first.now) view.now)))
/// ensures second: IfOk result (λ parts. IfSome parts (λ places. map pos places.1.items ≡
///     view_places RowMajor (slice_of Strict (B.list second.now) view.now)))
/// ensures separate: IfOk result (λ parts. IfSome parts (λ places.
///     (n : ℕ) → Contains places.0.items n → Contains places.1.items n → ⊥))
/// ensures intersect: IfOk result (λ parts. IfNone parts
///     (Intersect Strict view.now.shape (A.list first.now) (B.list second.now)))
/// ensures memory: shape_fault result ≡ None →
///     Intersect Strict view.now.shape (A.list first.now) (B.list second.now) → IsOk result
/// ```
/// [How to read it](ndarray_layout::contracts)
/// </details>
pub fn separate_places<D: Lengths, A: SliceElems, B: SliceElems>(
    view: &Strided<D>,
    first: &A,
    second: &B,
) -> Result<Option<(Vec<usize>, Vec<usize>)>, LayoutError> {
    if view.meets(first, second, Fit::Strict)? {
        return Ok(None);
    }
    let first = places_of(view, first)?;
    Ok(Some((first, places_of(view, second)?)))
}
