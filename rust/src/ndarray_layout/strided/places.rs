// Made by `rust/erase` of `crates/ndarray_layout/src/strided/places.rt`: edit that.
//! The place of an index of a view, and a list of the places of all.

use crate::memory::AllocError;
use crate::memory::prelude::{FallibleVec, Vec};
use crate::nd_base::{Lengths, Order, stride_offset, unsigned};
use crate::nd_dim::product;
use crate::nd_shape::NdIndex;
use crate::ndarray_layout::strided::Strided;
use crate::ndarray_layout::strided::rows::{Row, Rows};

/// Appends the places of rows, one row after another, to a list with room for them.
///
/// <details><summary>Contract (proved)</summary>
///
/// ```text
/// requires in_bounds: All (IsInBounds (2 ^ 63)) (rows_places rows)
/// requires few: length (rows_places rows) ≤ limit
/// requires room: vec_len places + length (rows_places rows) ≤ vec_capacity places
/// ensures items: map pos result.items ≡ map pos places.items ++ rows_places rows.entry
/// ensures len: vec_len result ≡ vec_len places + length (rows_places rows.entry)
/// ensures capacity: vec_capacity result ≡ vec_capacity places
/// ```
/// [How to read it](crate::contracts)
/// </details>
#[inline]
fn push_rows(mut places: Vec<usize>, rows: Rows<'_>) -> Vec<usize> {
    for row in rows {
        places = push_row(places, row);
    }
    places
}

/// Appends the places of a row. The list is passed by value: through a reference its length would be
/// written at each place, and the loop would not become vector code.
///
/// <details><summary>Contract (proved)</summary>
///
/// ```text
/// requires in_bounds: All (IsInBounds (2 ^ 63)) (row_places row.start row.stride row.len)
/// requires few: row.len < 2 ^ 63
/// requires room: vec_len places + row.len ≤ vec_capacity places
/// ensures items: map pos result.items ≡ map pos places.items ++ row_places row.start row.stride row.len
/// ensures len: vec_len result ≡ vec_len places + row.len
/// ensures capacity: vec_capacity result ≡ vec_capacity places
/// ```
/// [How to read it](crate::contracts)
/// </details>
#[inline]
fn push_row(mut places: Vec<usize>, row: Row) -> Vec<usize> {
    let stride = unsigned(row.stride);
    for i in 0..row.len {
        places.push_reserved(place_along_axis(row.start, i, stride));
    }
    places
}

/// The place of coordinate `i` of an axis whose first coordinate lies at `start`.
///
/// <details><summary>Contract (proved)</summary>
///
/// ```text
/// requires small: i < 2 ^ 63
/// requires first: start ≤ limit
/// requires there: IsPlace (pos start +ℤ (pos i *ℤ signed_reading stride))
/// ensures pos result ≡ pos start +ℤ (pos i *ℤ signed_reading stride)
/// ```
/// [How to read it](crate::contracts)
/// </details>
#[inline]
pub(super) fn place_along_axis(start: usize, i: usize, stride: usize) -> usize {
    offset_place(start, stride_offset(i, stride))
}

/// The place at an offset from another one.
///
/// # Conditions
///
/// The caller ensures that neither is greater than `isize::MAX`, and that the new one is not less than 0. Otherwise
/// this call or a later one panics or returns unspecified values.
///
/// <details><summary>Contract (proved)</summary>
///
/// ```text
/// requires first: start ≤ limit
/// requires there: IsPlace (pos start +ℤ offset)
/// ensures pos result ≡ pos start +ℤ offset
/// ```
/// [How to read it](crate::contracts)
/// </details>
#[inline]
pub(super) fn offset_place(start: usize, offset: isize) -> usize {
    (start as isize + offset) as usize
}

/// The place at an offset from another one, where there is one; else any number.
///
/// <details><summary>Contract (proved)</summary>
///
/// ```text
/// requires start ≤ limit
/// ensures IsPlace (pos start +ℤ offset) → pos result ≡ pos start +ℤ offset
/// ```
/// [How to read it](crate::contracts)
/// </details>
#[inline(always)]
pub(super) fn place_after(start: usize, offset: isize) -> usize {
    start.wrapping_add(unsigned(offset))
}

impl<D: Lengths> Strided<D> {
    /// The place of an index, in elements from the start of the data; `None` where it is no index
    /// of the shape.
    ///
    /// `[2,3]` with strides `[3,1]` from 0: (1,2) lies at 5, and (2,0) nowhere. The project's own.
    ///
    /// # Examples
    ///
    /// ```
    /// use ndarray_layout::{CanIndexCheckMode, Ix2, LayoutError, Strided};
    ///
    /// # fn main() -> Result<(), LayoutError> {
    /// let view = Strided::new(Ix2(2, 3), Ix2(3, 1), 1, 6, CanIndexCheckMode::ReadOnly)?;
    /// assert_eq!(view.place(&(1, 2)), Some(5));
    /// assert_eq!(view.place(&(2, 0)), None);
    /// # Ok(())
    /// # }
    /// ```
    ///
    /// <details><summary>Contract (proved)</summary>
    ///
    /// ```text
    /// ensures option_map pos result ≡ checked_place self.now (I.index_list index.now)
    /// ```
    /// [How to read it](crate::contracts)
    /// </details>
    #[inline]
    #[must_use]
    pub fn place<I: NdIndex<D>>(&self, index: &I) -> Option<usize> {
        let offset = index.index_checked(&self.dim, &self.strides)?;
        Some(offset_place(self.start, offset))
    }

    /// The places of all indices, in row-major order (the last axis moves fastest) or in
    /// column-major order (the first one does).
    ///
    /// Takes time and memory for each index.
    ///
    /// `[2,3]` with strides `[-3,1]` from 3: 3 4 5 0 1 2 in row-major order, 3 0 4 1 5 2 in
    /// column-major order. The project's own.
    ///
    /// # Errors
    ///
    /// Out of memory; none where there is no index.
    ///
    /// # Examples
    ///
    /// ```
    /// use ndarray_layout::{CanIndexCheckMode, Ix2, LayoutError, Order, Strided, unsigned};
    ///
    /// # fn main() -> Result<(), LayoutError> {
    /// let view = Strided::new(Ix2(2, 3), Ix2(unsigned(-3), 1), 1, 6, CanIndexCheckMode::ReadOnly)?;
    /// assert_eq!(view.places(Order::RowMajor)?, [3, 4, 5, 0, 1, 2]);
    /// assert_eq!(view.places(Order::ColumnMajor)?, [3, 0, 4, 1, 5, 2]);
    /// # Ok(())
    /// # }
    /// ```
    ///
    /// <details><summary>Contract (proved)</summary>
    ///
    /// ```text
    /// ensures items: IfOk result (λ v. map pos v.items ≡ view_places order self.now)
    /// ensures len: IfOk result (λ v. vec_len v ≡ size self.now.shape)
    /// ensures capacity: IfOk result (λ v. vec_capacity v ≡ size self.now.shape)
    /// ensures at_flat_index: IfOk result (λ v. (r : ℕ) → r < size self.now.shape →
    ///     option_map pos (slice_get v.items r)
    ///     ≡ Some (place_at self.now (index_of_flat_in order self.now.shape r)))
    /// ensures in_bounds: IfOk result (λ v. (len : ℕ) → LiesWithin len self.now → All (λ place. place < len) v.items)
    /// ensures memory: size self.now.shape ≡ 0 → IsOk result
    /// ```
    /// [How to read it](crate::contracts)
    /// </details>
    #[inline]
    pub fn places(&self, order: Order) -> Result<Vec<usize>, AllocError> {
        let size = product(self.dim.slice());
        let places = Vec::fallible_with_capacity(size)?;
        let (shape, strides) = (self.dim.slice(), self.strides.slice());
        Ok(push_rows(places, Rows::of_places(order, self.start, shape, strides)))
    }
}
