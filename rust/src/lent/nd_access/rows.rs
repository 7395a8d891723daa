// Made by `rust/erase` of `crates/nd_access/src/rows.rt`: edit that.
//! Rows of items that are lent to be read, one after another.

use crate::lent::nd_access::cells::Reader;
use crate::memory::prelude::Vec;
use crate::ndarray_layout::{LentAxes, Row, RowsOf, SlowerAxes};
use core::iter::FusedIterator;

/// A row of an array: items that lie evenly among those that are lent. There is at least one. ndarray's one-dimensional
/// `ArrayView`.
pub struct LentRow<'a, T> {
    pub(in crate::lent) reader: Reader<'a, T>,
    pub(in crate::lent) row: Row,
}

/// Not proved.
impl<'a, T> Clone for LentRow<'a, T> {
    fn clone(&self) -> Self {
        *self
    }
}

/// Not proved.
impl<'a, T> Copy for LentRow<'a, T> {}

/// The place of a coordinate of a row.
///
/// # Conditions
///
/// The caller ensures that neither it nor the first place is past an `isize`. Otherwise the behaviour is undefined.
///
/// <details><summary>Contract (proved)</summary>
///
/// ```text
/// requires first: row.start < 2 ^ 63
/// requires small: coordinate < 2 ^ 63
/// requires in_bounds: IsInBounds (2 ^ 63) (pos row.start +ℤ (pos coordinate *ℤ row.stride))
/// ensures pos result ≡ pos row.start +ℤ (pos coordinate *ℤ row.stride)
/// ```
/// [How to read it](crate::contracts)
/// </details>
#[inline(always)]
pub fn place_in_row(row: Row, coordinate: usize) -> usize {
    (row.start as isize + coordinate as isize * row.stride) as usize
}

/// Whether the places of a row lie side by side.
///
/// <details><summary>Contract (proved)</summary>
///
/// ```text
/// ensures result ≡ is_contiguous row
/// ```
/// [How to read it](crate::contracts)
/// </details>
#[inline(always)]
pub fn is_contiguous(row: Row) -> bool {
    row.stride == 1 || row.len <= 1
}

impl<'a, T> LentRow<'a, T> {
    /// How many items it has.
    ///
    /// # Examples
    ///
    /// ```
    /// use ndarray_layout::{ArrayView, Ix2, LayoutError, LentRow};
    ///
    /// # fn main() -> Result<(), LayoutError> {
    /// let table = ArrayView::from_shape(Ix2(2, 3), &[1, 2, 3, 4, 5, 6])?;
    /// let rows: Vec<LentRow<'_, i32>> = table.rows().collect();
    /// assert_eq!((rows[0].len(), rows[1].len()), (3, 3));
    /// # Ok(())
    /// # }
    /// ```
    ///
    /// <details><summary>Contract (proved)</summary>
    ///
    /// ```text
    /// ensures len: result ≡ self.now.row.len
    /// ensures count: result ≡ length (row_items self.now)
    /// ```
    /// [How to read it](crate::contracts)
    /// </details>
    #[must_use]
    #[inline]
    pub fn len(&self) -> usize {
        self.row.len
    }

    /// The items as a slice, where they follow one another: by the stride 1, or if there is one; else `None`.
    ///
    /// Of `[2,2]` over 5 6 7 8 the second row is 7 8; the transpose has `None`. ndarray's `to_slice` of a row.
    ///
    /// # Examples
    ///
    /// ```
    /// use ndarray_layout::{ArrayView, Ix2, LayoutError, LentRow};
    ///
    /// # fn main() -> Result<(), LayoutError> {
    /// let table = ArrayView::from_shape(Ix2(2, 2), &[5, 6, 7, 8])?;
    /// let rows: Vec<LentRow<'_, i32>> = table.rows().collect();
    /// assert_eq!(rows[1].as_slice(), Some(&[7, 8][..]));
    /// let turned = table.reversed_axes();
    /// assert!(turned.rows().all(|row| row.as_slice().is_none()));
    /// # Ok(())
    /// # }
    /// ```
    ///
    /// <details><summary>Contract (proved)</summary>
    ///
    /// ```text
    /// ensures found: IsSome result ↔ IsTrue (is_contiguous self.now.row)
    /// ensures items: IfSome result (λ slice. map Some slice.now ≡ row_items self.now)
    /// ```
    /// [How to read it](crate::contracts)
    /// </details>
    #[must_use]
    #[inline]
    pub fn as_slice(&self) -> Option<&'a [T]> {
        let row = self.row;
        if !is_contiguous(row) {
            return None;
        }
        Some(self.reader.slice(row.start, row.len))
    }

    /// The row as all of a slice, where the items follow one another; else `None`.
    ///
    /// <details><summary>Contract (proved)</summary>
    ///
    /// ```text
    /// ensures items: IfSome result (λ row. row_items row ≡ row_items self.now)
    /// ensures len: IfSome result (λ row. row.row.len ≡ self.now.row.len)
    /// ```
    /// [How to read it](crate::contracts)
    /// </details>
    #[inline(always)]
    pub(in crate::lent) fn alone(&self) -> Option<LentRow<'a, T>> {
        let len = self.row.len;
        let items = self.as_slice()?;
        let row = Row { start: 0, stride: 1, len };
        Some(LentRow { reader: Reader::of_slice(items), row })
    }

    /// The items as a slice, the last one first, where each lies just before the one that it follows: by the stride -1; else `None`.
    ///
    /// Of `[2]`, `[-1]` from 1 over 7 8 9: 7 8, of which 8 is the first item. The project's own.
    ///
    /// <details><summary>Contract (proved)</summary>
    ///
    /// ```text
    /// ensures found: IsSome result ↔ IsTrue (is_backwards self.now.row)
    /// ensures items: IfSome result (λ slice. reverse (map Some slice.now) ≡ row_items self.now)
    /// ```
    /// [How to read it](crate::contracts)
    /// </details>
    #[inline]
    pub(in crate::lent) fn as_slice_backwards(&self) -> Option<&'a [T]> {
        let row = self.row;
        if row.stride != -1 {
            return None;
        }
        Some(self.reader.slice(row.start + 1 - row.len, row.len))
    }

    /// The item of a coordinate.
    ///
    /// # Conditions
    ///
    /// The caller ensures that it is one of the row. Otherwise the behaviour is undefined.
    ///
    /// <details><summary>Contract (proved)</summary>
    ///
    /// ```text
    /// requires coordinate < self.now.row.len
    /// ensures slice_index_or (row_items self.now) coordinate None ≡ Some result.now
    /// ```
    /// [How to read it](crate::contracts)
    /// </details>
    #[inline(always)]
    pub(in crate::lent) fn item(&self, coordinate: usize) -> &'a T {
        self.reader.get(place_in_row(self.row, coordinate))
    }

    /// The item of a coordinate; `None` where it is past the row.
    ///
    /// Of `[2,2]` over 5 6 7 8, the second row at 0: 7; at 2: `None`. ndarray's `get` of a row.
    ///
    /// # Examples
    ///
    /// ```
    /// use ndarray_layout::{ArrayView, Ix2, LayoutError, LentRow};
    ///
    /// # fn main() -> Result<(), LayoutError> {
    /// let table = ArrayView::from_shape(Ix2(2, 2), &[5, 6, 7, 8])?;
    /// let rows: Vec<LentRow<'_, i32>> = table.rows().collect();
    /// assert_eq!(rows[1].get(0), Some(&7));
    /// assert_eq!(rows[1].get(2), None);
    /// # Ok(())
    /// # }
    /// ```
    ///
    /// <details><summary>Contract (proved)</summary>
    ///
    /// ```text
    /// ensures found: IsSome result ↔ (coordinate < self.now.row.len)
    /// ensures item: option_copied result ≡ slice_index_or (row_items self.now) coordinate None
    /// ```
    /// [How to read it](crate::contracts)
    /// </details>
    #[must_use]
    #[inline]
    pub fn get(&self, coordinate: usize) -> Option<&'a T> {
        if coordinate >= self.row.len {
            return None;
        }
        Some(self.item(coordinate))
    }
}

/// Rows of an array that are still to come, in row-major order, from both ends, each lent: `LentRows` where the view is
/// borrowed.
pub struct LentRowsOf<'a, T, A: SlowerAxes> {
    reader: Reader<'a, T>,
    rows: RowsOf<A>,
}

/// The rows of an array that are still to come, in row-major order, from both ends, each lent.
pub type LentRows<'a, T> = LentRowsOf<'a, T, LentAxes<'a>>;

impl<'a, T, A: SlowerAxes> LentRowsOf<'a, T, A> {
    /// These rows, each lent.
    ///
    /// # Conditions
    ///
    /// The caller ensures that each has an item at each place. Otherwise the behaviour is undefined.
    ///
    /// <details><summary>Contract (proved)</summary>
    ///
    /// ```text
    /// requires AreRowsRead reader.marks (length reader.items) rows
    /// ensures result ≡ map (row_of reader.entry.items) rows
    /// ```
    /// [How to read it](crate::contracts)
    /// </details>
    #[inline]
    pub(in crate::lent) fn new(reader: Reader<'a, T>, rows: RowsOf<A>) -> Self {
        LentRowsOf { reader, rows }
    }

    /// How many items each row has; unspecified where none is left.
    ///
    /// <details><summary>Contract (proved)</summary>
    ///
    /// ```text
    /// ensures All (λ row. row.row.len ≡ result) self.now
    /// ```
    /// [How to read it](crate::contracts)
    /// </details>
    #[inline]
    pub(in crate::lent) fn row_len(&self) -> usize {
        self.rows.row_len()
    }
}

impl<'a, T, A: SlowerAxes> Iterator for LentRowsOf<'a, T, A> {
    type Item = LentRow<'a, T>;

    #[inline]
    fn next(&mut self) -> Option<LentRow<'a, T>> {
        let row = self.rows.next()?;
        Some(LentRow { reader: self.reader.copied(), row })
    }

    #[inline]
    fn size_hint(&self) -> (usize, Option<usize>) {
        self.rows.size_hint()
    }
}

impl<'a, T, A: SlowerAxes> DoubleEndedIterator for LentRowsOf<'a, T, A> {
    #[inline]
    fn next_back(&mut self) -> Option<LentRow<'a, T>> {
        let row = self.rows.next_back()?;
        Some(LentRow { reader: self.reader.copied(), row })
    }
}

impl<T, A: SlowerAxes> ExactSizeIterator for LentRowsOf<'_, T, A> {
    #[inline]
    fn len(&self) -> usize {
        self.rows.len()
    }
}

impl<T, A: SlowerAxes> FusedIterator for LentRowsOf<'_, T, A> {}
