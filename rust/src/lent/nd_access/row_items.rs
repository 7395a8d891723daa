// Made by `rust/erase` of `crates/nd_access/src/row_items.rt`: edit that.
//! The items of a row one after another, lent for as long as the data is.

use crate::lent::nd_access::cells::Reader;
use crate::lent::nd_access::row_by_row::RowByRow;
use crate::lent::nd_access::rows::{LentRow, place_in_row};
use crate::ndarray_layout::Row;
use core::iter::FusedIterator;

/// The items of a row that are still to come, from both ends, each lent for as long as the data is. ndarray's `Iter` of
/// a row.
pub struct RowItems<'a, T> {
    reader: Reader<'a, T>,
    row: Row,
    // The coordinate that comes next, and the one after the last that is left.
    begun: usize,
    end: usize,
}

/// A copy, of which neither moves the other. Panics where an allocation fails, never for at most 4 axes. Not proved.
impl<'a, T> Clone for RowItems<'a, T> {
    fn clone(&self) -> Self {
        RowItems {
            reader: Clone::clone(&self.reader),
            row: Clone::clone(&self.row),
            begun: Clone::clone(&self.begun),
            end: Clone::clone(&self.end),
        }
    }
}

impl<'a, T> RowItems<'a, T> {
    /// The items that are left, as a row; `None` where none is.
    ///
    /// <details><summary>Contract (proved)</summary>
    ///
    /// ```text
    /// ensures MatchOption result ((self.old ≡ []) × (self.new ≡ []))
    ///     (λ row. (0 < row.row.len) × (self.old ≡ row_items row) × (self.new ≡ []))
    /// ```
    /// [How to read it](crate::contracts)
    /// </details>
    #[inline]
    fn rest(&mut self) -> Option<LentRow<'a, T>> {
        if self.begun == self.end {
            return None;
        }
        let row =
            Row { start: place_in_row(self.row, self.begun), stride: self.row.stride, len: self.end - self.begun };
        self.begun = self.end;
        Some(LentRow { reader: self.reader.copied(), row })
    }

    /// Skips the next `count` items, or all that remain.
    ///
    /// Of a row of 5 6 7, after two items: 7. What `nth` of std's iterators skips one by one.
    ///
    /// # Examples
    ///
    /// ```
    /// use ndarray_layout::{ArrayView, Ix2, LayoutError};
    ///
    /// # fn main() -> Result<(), LayoutError> {
    /// let table = ArrayView::from_shape(Ix2(1, 3), &[5, 6, 7])?;
    /// if let Some(row) = table.into_rows().next() {
    ///     let mut left = row.into_iter();
    ///     left.advance(2);
    ///     assert_eq!((left.next(), left.next()), (Some(&7), None));
    /// }
    /// # Ok(())
    /// # }
    /// ```
    ///
    /// <details><summary>Contract (proved)</summary>
    ///
    /// ```text
    /// ensures self.new ≡ drop count self.old
    /// ```
    /// [How to read it](crate::contracts)
    /// </details>
    #[inline]
    pub fn advance(&mut self, count: usize) {
        self.begun += count.min(self.end - self.begun);
    }

    /// Skips the last `count` items, or all that remain.
    ///
    /// Of a row of 5 6 7, without the last two: 5. What `nth_back` of std's iterators skips one by one.
    ///
    /// # Examples
    ///
    /// ```
    /// use ndarray_layout::{ArrayView, Ix2, LayoutError};
    ///
    /// # fn main() -> Result<(), LayoutError> {
    /// let table = ArrayView::from_shape(Ix2(1, 3), &[5, 6, 7])?;
    /// if let Some(row) = table.into_rows().next() {
    ///     let mut left = row.into_iter();
    ///     left.advance_back(2);
    ///     assert_eq!((left.next_back(), left.next_back()), (Some(&5), None));
    /// }
    /// # Ok(())
    /// # }
    /// ```
    ///
    /// <details><summary>Contract (proved)</summary>
    ///
    /// ```text
    /// ensures self.new ≡ take (length self.old - count) self.old
    /// ```
    /// [How to read it](crate::contracts)
    /// </details>
    #[inline]
    pub fn advance_back(&mut self, count: usize) {
        self.end -= count.min(self.end - self.begun);
    }
}

impl<'a, T> RowByRow<'a, T> for RowItems<'a, T> {
    #[inline]
    fn next_row(&mut self) -> Option<LentRow<'a, T>> {
        self.rest()
    }

    #[inline]
    fn next_row_back(&mut self) -> Option<LentRow<'a, T>> {
        self.rest()
    }
}

impl<'a, T> Iterator for RowItems<'a, T> {
    type Item = &'a T;

    #[inline]
    fn next(&mut self) -> Option<&'a T> {
        if self.begun == self.end {
            return None;
        }
        let row = LentRow { reader: self.reader.copied(), row: self.row };
        let item = row.item(self.begun);
        self.begun += 1;
        Some(item)
    }

    #[inline]
    fn size_hint(&self) -> (usize, Option<usize>) {
        let left = self.len();
        (left, Some(left))
    }

    crate::arrays::fold_row!();
}

impl<'a, T> DoubleEndedIterator for RowItems<'a, T> {
    #[inline]
    fn next_back(&mut self) -> Option<&'a T> {
        if self.begun == self.end {
            return None;
        }
        self.end -= 1;
        let row = LentRow { reader: self.reader.copied(), row: self.row };
        Some(row.item(self.end))
    }

    crate::arrays::rfold_lent!();
}

impl<T> ExactSizeIterator for RowItems<'_, T> {
    #[inline]
    fn len(&self) -> usize {
        self.end - self.begun
    }
}

impl<T> FusedIterator for RowItems<'_, T> {}

/// Iterates over the items of the row.
///
/// Takes no memory. An item costs a product.
///
/// Of `[2,2]` over 5 6 7 8 the second row gives 7 8. ndarray's `into_iter` of a row.
impl<'a, T> IntoIterator for LentRow<'a, T> {
    type Item = &'a T;

    type IntoIter = RowItems<'a, T>;

    #[inline]
    fn into_iter(self) -> RowItems<'a, T> {
        let LentRow { reader, row } = self;
        RowItems { reader, row, begun: 0, end: row.len }
    }
}
