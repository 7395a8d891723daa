// Made by `rust/erase` of `crates/nd_items/src/into_rows.rt`: edit that.
//! The rows of an array one after another, lent for as long as the data is: the iterator has the view.

use crate::lent::nd_access::{LentRow, Reader};
use crate::ndarray_layout::{Lengths, Order, Strided, StridedRows};
use core::iter::FusedIterator;

/// The rows of an array that are still to come, in row-major order, from both ends, each lent for as long as the data
/// is. ndarray's `Lanes`.
pub struct IntoRows<'a, T, D: Lengths> {
    reader: Reader<'a, T>,
    rows: StridedRows<D>,
}

impl<'a, T, D: Lengths> IntoRows<'a, T, D> {
    /// The rows of a view along its last axis.
    ///
    /// # Conditions
    ///
    /// The caller ensures that each index has an item. Otherwise the behaviour is undefined.
    ///
    /// <details><summary>Contract (proved)</summary>
    ///
    /// ```text
    /// requires IsRead reader.marks (length reader.items) view
    /// ensures rows: result ≡ map (row_of reader.entry.items) (view_rows RowMajor view)
    /// ensures items: rows_items result ≡ map (item_at_place reader.entry.items) (view_places RowMajor view)
    /// ensures in_order: YieldsInOrder (YieldsFirst (λ (left : List (RowValue T)). left)) (λ left. left)
    /// ```
    /// [How to read it](crate::contracts)
    /// </details>
    #[inline]
    pub(in crate::lent) fn of_reader(reader: Reader<'a, T>, view: Strided<D>) -> Self {
        IntoRows { reader, rows: view.into_rows(Order::RowMajor) }
    }

    /// Skips the next `count` rows, or all that remain.
    ///
    /// Takes no time for each row, and a division for each axis but that of the rows (`RowsOf::advance`).
    ///
    /// Of the rows of `[2,2]` over 5 6 7 8, after one row: 7 8. What `nth` of std's iterators skips one by one.
    ///
    /// # Examples
    ///
    /// ```
    /// use ndarray_layout::{ArrayView, Ix2, LayoutError};
    ///
    /// # fn main() -> Result<(), LayoutError> {
    /// let table = ArrayView::from_shape(Ix2(2, 2), &[5, 6, 7, 8])?;
    /// let mut left = table.into_rows();
    /// left.advance(1);
    /// assert_eq!(left.next().and_then(|row| row.as_slice()), Some(&[7, 8][..]));
    /// # Ok(())
    /// # }
    /// ```
    ///
    /// <details><summary>Contract (proved)</summary>
    ///
    /// ```text
    /// ensures self.new ≡ drop count self.old
    /// ```
    /// [How to read it](crate::contracts)
    /// </details>
    #[inline]
    pub fn advance(&mut self, count: usize) {
        self.rows.advance(count);
    }

    /// Skips the last `count` rows, or all that remain.
    ///
    /// Takes no time for each row, and has the last one cost a division (`RowsOf::advance_back`).
    ///
    /// Of the rows of `[2,2]` over 5 6 7 8, without the last row: 5 6. What `nth_back` of std's iterators skips one by one.
    ///
    /// # Examples
    ///
    /// ```
    /// use ndarray_layout::{ArrayView, Ix2, LayoutError};
    ///
    /// # fn main() -> Result<(), LayoutError> {
    /// let table = ArrayView::from_shape(Ix2(2, 2), &[5, 6, 7, 8])?;
    /// let mut left = table.into_rows();
    /// left.advance_back(1);
    /// assert_eq!(left.next_back().and_then(|row| row.as_slice()), Some(&[5, 6][..]));
    /// # Ok(())
    /// # }
    /// ```
    ///
    /// <details><summary>Contract (proved)</summary>
    ///
    /// ```text
    /// ensures self.new ≡ take (length self.old - count) self.old
    /// ```
    /// [How to read it](crate::contracts)
    /// </details>
    #[inline]
    pub fn advance_back(&mut self, count: usize) {
        self.rows.advance_back(count);
    }
}

impl<'a, T, D: Lengths> Iterator for IntoRows<'a, T, D> {
    type Item = LentRow<'a, T>;

    #[inline]
    fn next(&mut self) -> Option<LentRow<'a, T>> {
        let row = self.rows.next()?;
        Some(LentRow { reader: self.reader.copied(), row })
    }

    #[inline]
    fn size_hint(&self) -> (usize, Option<usize>) {
        self.rows.size_hint()
    }
}

impl<'a, T, D: Lengths> DoubleEndedIterator for IntoRows<'a, T, D> {
    #[inline]
    fn next_back(&mut self) -> Option<LentRow<'a, T>> {
        let row = self.rows.next_back()?;
        Some(LentRow { reader: self.reader.copied(), row })
    }
}

impl<'a, T, D: Lengths> ExactSizeIterator for IntoRows<'a, T, D> {
    #[inline]
    fn len(&self) -> usize {
        self.rows.len()
    }
}

impl<'a, T, D: Lengths> FusedIterator for IntoRows<'a, T, D> {}
