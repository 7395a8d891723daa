// Made by `rust/erase` of `crates/ndarray_layout/src/strided/folding.rt`: edit that.
//! A function that is called at each place of an iterator in turn, row by row.

use crate::nd_base::unsigned;
use crate::ndarray_layout::strided::places::place_along_axis;
use crate::ndarray_layout::strided::places_of_rows::PlacesOf;
use crate::ndarray_layout::strided::rows::Row;
use crate::ndarray_layout::strided::slower_axes::SlowerAxes;

/// Folds the places of a row, and hands back the function.
///
/// <details><summary>Contract (proved)</summary>
///
/// ```text
/// requires in_bounds: All (IsInBounds (2 ^ 63)) (row_places row.start row.stride row.len)
/// requires few: row.len < 2 ^ 63
/// requires callable: CallableInFold (gives pos) F.FnMut (row_places row.start row.stride row.len) f init
/// ensures HasFolded pos F.FnMut (f, init) (row_places row.start row.stride row.len) (result.1, result.0)
/// ```
/// [How to read it](crate::contracts)
/// </details>
#[inline(always)]
fn fold_row<B, F: FnMut(B, usize) -> B>(row: Row, init: B, mut f: F) -> (B, F) {
    let stride = unsigned(row.stride);
    let mut total = init;
    for coordinate in 0..row.len {
        total = f(total, place_along_axis(row.start, coordinate, stride));
    }
    (total, f)
}

impl<A: SlowerAxes> PlacesOf<A> {
    /// The last result of a function that is called at each place that is left, in order, with the result before, first with
    /// `init`.
    ///
    /// It is what `fold` of std's iterators returns. Takes no memory. Each row is a loop over its places.
    ///
    /// Of the places 3 4 5 0 1 2, after 3 of them: `fold_rest(0, |sum, place| sum + place)` is 3. The project's own.
    ///
    /// # Conditions
    ///
    /// The function may be called with any item of the array, after any result that it has returned. Where it panics,
    /// so does this call.
    ///
    /// # Examples
    ///
    /// ```
    /// use ndarray_layout::*;
    ///
    /// let view = Strided::new(Ix2(2, 3), Ix2(unsigned(-3), 1), 1, 6, CanIndexCheckMode::OwnedMutable)?;
    /// let mut places = view.iter_places(Order::RowMajor);
    /// places.advance(3);
    /// assert_eq!(places.fold_rest(0, |sum, place| sum + place), 3);
    /// # Ok::<(), LayoutError>(())
    /// ```
    ///
    /// <details><summary>Contract (proved)</summary>
    ///
    /// ```text
    /// requires callable: CallableInFold (gives pos) F.FnMut self f init
    /// ensures ran: FoldsItems (gives pos) F.FnMut self f init result
    /// ```
    /// [How to read it](crate::contracts)
    /// </details>
    #[inline]
    pub fn fold_rest<B, F: FnMut(B, usize) -> B>(self, init: B, f: F) -> B {
        let (mut places, mut total, mut f) = (self, init, f);
        while let Some(row) = places.next_row() {
            (total, f) = fold_row(row, total, f);
        }
        total
    }
}
