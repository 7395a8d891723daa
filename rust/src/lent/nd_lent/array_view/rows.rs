// Made by `rust/erase` of `crates/nd_lent/src/array_view/rows.rt`: edit that.
//! The rows of an array one after another, each lent.

use crate::lent::nd_access::{LentRow, LentRows};
use crate::lent::nd_items::IntoRows;
use crate::lent::nd_lent::array_view::ArrayView;
use crate::lent::nd_lent::axis_last::with_axis_last;
use crate::lent::nd_loops::nearest_rows;
use crate::memory::prelude::Vec;
use crate::ndarray_layout::{Axis, Ix1, Ix6, Lengths, Order, ShapeError, Strided};

impl<'a, T, D: Lengths> ArrayView<'a, T, D> {
    /// The items of all indices as the longest rows that the axes allow, in row-major order.
    ///
    /// <details><summary>Contract (proved)</summary>
    ///
    /// ```text
    /// ensures rows_items result ≡ map (item_at_place self.now.items) (view_places RowMajor self.now.view)
    /// ```
    /// [How to read it](crate::contracts)
    /// </details>
    #[inline]
    pub(in crate::lent::nd_lent) fn joined_rows(&self) -> LentRows<'_, T> {
        LentRows::new(self.reader(), self.strided().joined_rows(Order::RowMajor))
    }

    /// The items of all indices as the rows of the nearest view, or as `joined_rows` where there is none.
    ///
    /// <details><summary>Contract (proved)</summary>
    ///
    /// ```text
    /// requires IfSome nearest.now (λ nearest.
    ///     IsPermutation (view_places RowMajor nearest) (view_places RowMajor self.now.view))
    /// ensures IsPermutation (rows_items result)
    ///     (map (item_at_place self.now.items) (view_places RowMajor self.now.view))
    /// ```
    /// [How to read it](crate::contracts)
    /// </details>
    #[inline]
    pub(in crate::lent::nd_lent) fn rows_in<'s>(&'s self, nearest: &'s Option<Strided<Ix6>>) -> LentRows<'s, T> {
        LentRows::new(self.reader(), nearest_rows(self.strided(), nearest))
    }

    /// An iterator over the rows along the last axis, in row-major order, from both ends, which knows how many are left. Each is
    /// lent. An array without axes has one row, of one item; an array without indices has none.
    ///
    /// Takes no memory, and lists nothing. A row takes the time of its places (`Strided::rows`).
    ///
    /// `[2,2]` over 5 6 7 8: the rows 5 6 and 7 8; of the transpose 5 7 and 6 8. ndarray's `rows`.
    ///
    /// # Examples
    ///
    /// ```
    /// use ndarray_layout::{ArrayView, Ix2, LayoutError};
    ///
    /// # fn main() -> Result<(), LayoutError> {
    /// let table = ArrayView::from_shape(Ix2(2, 2), &[5, 6, 7, 8])?;
    /// let rows: Vec<&[i32]> = table.rows().filter_map(|row| row.as_slice()).collect();
    /// assert_eq!(rows, [[5, 6], [7, 8]]);
    /// let turned = table.reversed_axes();
    /// let rows: Vec<Vec<i32>> = turned.rows().map(|row| row.into_iter().copied().collect()).collect();
    /// assert_eq!(rows, [[5, 7], [6, 8]]);
    /// # Ok(())
    /// # }
    /// ```
    ///
    /// <details><summary>Contract (proved)</summary>
    ///
    /// ```text
    /// ensures rows: result ≡ map (row_of self.now.items) (view_rows RowMajor self.now.view)
    /// ensures items: rows_items result ≡ map (item_at_place self.now.items) (view_places RowMajor self.now.view)
    /// ensures in_order: YieldsInOrder (YieldsFirst (λ (left : List (RowValue T)). left)) (λ left. left)
    /// ```
    /// [How to read it](crate::contracts)
    /// </details>
    #[inline]
    #[must_use]
    pub fn rows(&self) -> LentRows<'_, T> {
        LentRows::new(self.reader(), self.strided().rows(Order::RowMajor))
    }
}

impl<'a, T> LentRow<'a, T> {
    /// The row as an array of one axis.
    ///
    /// Takes no memory.
    ///
    /// Of `[2,2]` over 5 6 7 8 the second row: `[2]` from 2, 7 8. ndarray's rows are such arrays.
    ///
    /// # Examples
    ///
    /// ```
    /// use ndarray_layout::{ArrayView, Ix2, LayoutError};
    ///
    /// # fn main() -> Result<(), LayoutError> {
    /// let rows = ArrayView::from_shape(Ix2(2, 3), &[1, 2, 3, 4, 5, 6])?;
    /// let last = rows.into_rows().last().map(|row| row.into_array()[1]);
    /// assert_eq!(last, Some(5));
    /// # Ok(())
    /// # }
    /// ```
    ///
    /// <details><summary>Contract (proved)</summary>
    ///
    /// ```text
    /// ensures result ≡ row_array self.entry.items self.entry.row
    /// ```
    /// [How to read it](crate::contracts)
    /// </details>
    #[must_use]
    #[inline]
    pub fn into_array(self) -> ArrayView<'a, T, Ix1> {
        let LentRow { reader, row } = self;
        ArrayView { reader, view: row.layout() }
    }
}

impl<'a, T, D: Lengths> ArrayView<'a, T, D> {
    /// An iterator over the rows along the last axis, in row-major order, from both ends, each lent for as long as the data is. It
    /// ends the array; `rows` keeps it.
    ///
    /// Takes no memory. A row takes the time of its places (`Strided::into_rows`).
    ///
    /// `[2,2]` over 5 6 7 8: the rows 5 6 and 7 8. ndarray's `rows`.
    ///
    /// # Examples
    ///
    /// ```
    /// use ndarray_layout::{ArrayView, Ix2, LayoutError, LentRow};
    ///
    /// # fn main() -> Result<(), LayoutError> {
    /// fn last<'a>(items: &'a [u8]) -> Result<Option<LentRow<'a, u8>>, LayoutError> {
    ///     let table = ArrayView::from_shape(Ix2(2, 3), items)?;
    ///     Ok(table.into_rows().next_back())
    /// }
    ///
    /// let row = last(&[1, 2, 3, 4, 5, 6])?;
    /// assert_eq!(row.and_then(|row| row.as_slice()), Some(&[4, 5, 6][..]));
    /// # Ok(())
    /// # }
    /// ```
    ///
    /// <details><summary>Contract (proved)</summary>
    ///
    /// ```text
    /// ensures rows: result ≡ map (row_of self.entry.items) (view_rows RowMajor self.entry.view)
    /// ensures items: rows_items result ≡ map (item_at_place self.entry.items) (view_places RowMajor self.entry.view)
    /// ensures in_order: YieldsInOrder (YieldsFirst (λ (left : List (RowValue T)). left)) (λ left. left)
    /// ```
    /// [How to read it](crate::contracts)
    /// </details>
    #[inline]
    #[must_use]
    pub fn into_rows(self) -> IntoRows<'a, T, D> {
        let ArrayView { reader, view } = self;
        IntoRows::of_reader(reader, view)
    }

    /// An iterator over the rows along an axis, in row-major order of the other coordinates, from both ends, each lent for as long as
    /// the data is. It ends the array.
    ///
    /// Takes no memory, and time in proportion to the count of axes. A row takes the time of its places (`Strided::into_rows`).
    ///
    /// Axis 0 of `[2,2]` over 5 6 7 8: the rows 5 7 and 6 8. ndarray's `lanes`.
    ///
    /// # Errors
    ///
    /// `OutOfBounds` where there is no such axis.
    ///
    /// # Examples
    ///
    /// ```
    /// use ndarray_layout::{ArrayView, Axis, ErrorKind, Ix2, LayoutError};
    ///
    /// # fn main() -> Result<(), LayoutError> {
    /// let table = ArrayView::from_shape(Ix2(2, 2), &[5, 6, 7, 8])?;
    /// let columns = table.duplicate()?.into_lanes(Axis(0))?;
    /// assert_eq!(columns.map(|column| column.into_iter().sum::<i32>()).collect::<Vec<_>>(), [12, 14]);
    /// assert_eq!(table.into_lanes(Axis(2)).err().map(|error| error.kind()), Some(ErrorKind::OutOfBounds));
    /// # Ok(())
    /// # }
    /// ```
    ///
    /// <details><summary>Contract (proved)</summary>
    ///
    /// ```text
    /// ensures fault: result_err result ≡ invert_fault self.entry.view.shape axis.0
    /// ensures rows: IfOk result (λ rows. rows ≡ map (row_of self.entry.items)
    ///     (view_rows RowMajor (axis_last_of axis.0 self.entry.view)))
    /// ensures items: IfOk result (λ rows. rows_items rows
    ///     ≡ map (item_at_place self.entry.items)
    ///     (view_places RowMajor (axis_last_of axis.0 self.entry.view)))
    /// ensures in_order: OnOk result (YieldsInOrder (YieldsFirst (λ (left : List (RowValue T)). left)) (λ left. left))
    /// ```
    /// [How to read it](crate::contracts)
    /// </details>
    #[inline]
    pub fn into_lanes(self, axis: Axis) -> Result<IntoRows<'a, T, D>, ShapeError> {
        let ArrayView { reader, view } = self;
        let view = with_axis_last(view, axis)?;
        Ok(IntoRows::of_reader(reader, view))
    }
}
