// Made by `rust/erase` of `crates/nd_lent/src/array_view_mut/rows.rt`: edit that.
//! The rows of a part one after another, each a part of its own, without a list of them.

use crate::lent::nd_access::Cells;
use crate::lent::nd_lent::array_view_mut::ArrayViewMut;
use crate::lent::nd_lent::axis_last::with_axis_last;
use crate::ndarray_layout::{Axis, Ix1, Lengths, Order, ShapeError, Strided};
use core::iter::FusedIterator;

/// The rows of a part that are still to come, along its last axis, in row-major order, from both ends, each a part of its own.
/// ndarray's `LanesMut`.
pub struct LanesMut<'a, T, D: Lengths> {
    pub(in crate::lent::nd_lent) cells: Cells<'a, T>,
    pub(in crate::lent::nd_lent) view: Strided<D>,
    // The number of the row that comes next, and the one after that of the last row that is left.
    pub(in crate::lent::nd_lent) begun: usize,
    pub(in crate::lent::nd_lent) end: usize,
}

impl<'a, T: Sized, D: Lengths> Iterator for LanesMut<'a, T, D> {
    type Item = ArrayViewMut<'a, T, Ix1>;

    #[inline]
    fn next(&mut self) -> Option<ArrayViewMut<'a, T, Ix1>> {
        if self.begun == self.end {
            return None;
        }
        let row = self.view.nth_row(Order::RowMajor, self.begun)?;
        self.begun += 1;
        Some(ArrayViewMut::take_from(&mut self.cells, row))
    }

    #[inline]
    fn size_hint(&self) -> (usize, Option<usize>) {
        let left = self.len();
        (left, Some(left))
    }

    crate::arrays::skip!();
}

impl<'a, T: Sized, D: Lengths> DoubleEndedIterator for LanesMut<'a, T, D> {
    #[inline]
    fn next_back(&mut self) -> Option<ArrayViewMut<'a, T, Ix1>> {
        if self.begun == self.end {
            return None;
        }
        let row = self.view.nth_row(Order::RowMajor, self.end - 1)?;
        self.end -= 1;
        Some(ArrayViewMut::take_from(&mut self.cells, row))
    }

    crate::arrays::skip_back!();
}

impl<'a, T: Sized, D: Lengths> ExactSizeIterator for LanesMut<'a, T, D> {
    #[inline]
    fn len(&self) -> usize {
        self.end - self.begun
    }
}

impl<'a, T: Sized, D: Lengths> FusedIterator for LanesMut<'a, T, D> {}

impl<'a, T: Sized, D: Lengths> LanesMut<'a, T, D> {
    /// Skips the next `count` rows, or all that remain. They are unchanged.
    ///
    /// Takes no memory, and no time for each of them.
    ///
    /// Of the rows of `[4,2]`, after 3 of them: the last one. What `nth` of std's iterators skips one by one.
    ///
    /// <details><summary>Contract (proved)</summary>
    ///
    /// ```text
    /// ensures left: rows_left self.new ≡ drop count (rows_left self.old)
    /// ensures keeps_access: access_left self.new ≡ access_left self.old
    /// ```
    /// [How to read it](crate::contracts)
    /// </details>
    #[inline]
    pub fn advance(&mut self, count: usize) {
        self.begun += count.min(self.end - self.begun);
    }

    /// Skips the last `count` rows, or all that remain. They are unchanged.
    ///
    /// Takes no memory, and no time for each of them.
    ///
    /// Of the rows of `[4,2]`, without the last 3: the first one. What `nth_back` of std's iterators skips one by one.
    ///
    /// <details><summary>Contract (proved)</summary>
    ///
    /// ```text
    /// ensures left: rows_left self.new ≡ take (length (rows_left self.old) - count) (rows_left self.old)
    /// ensures keeps_access: access_left self.new ≡ access_left self.old
    /// ```
    /// [How to read it](crate::contracts)
    /// </details>
    #[inline]
    pub fn advance_back(&mut self, count: usize) {
        self.end -= count.min(self.end - self.begun);
    }
}

impl<'a, T: Sized, D: Lengths> ArrayViewMut<'a, T, D> {
    /// An iterator over the rows along the last axis, in row-major order, from both ends, each a part of its own: several may be used
    /// at once, and in threads, whatever the strides are. It knows how many are left. A part without axes has one row, of one item; a
    /// part without indices has none. That the rows keep what is written is tested, and in no clause.
    ///
    /// Takes no memory. A row takes the time of `Strided::nth_row`.
    ///
    /// The transpose of `[2,2]` over 5 6 7 8: the rows 5 7 and 6 8. ndarray's `rows_mut`.
    ///
    /// # Examples
    ///
    /// ```
    /// use ndarray_layout::{ArrayViewMut, Ix2, LayoutError};
    ///
    /// # fn main() -> Result<(), LayoutError> {
    /// let mut items = [5, 6, 7, 8];
    /// let mut left = ArrayViewMut::from_shape(Ix2(2, 2), &mut items)?.reversed_axes().into_rows();
    /// assert_eq!(left.len(), 2);
    /// let (Some(mut first), Some(mut second), None) = (left.next(), left.next(), left.next()) else {
    ///     panic!("two rows");
    /// };
    /// assert_eq!((first[0], first[1], second[0], second[1]), (5, 7, 6, 8));
    /// second[1] = first[0];
    /// first.fill(0);
    /// assert_eq!(items, [0, 6, 0, 5]);
    /// # Ok(())
    /// # }
    /// ```
    ///
    /// <details><summary>Contract (proved)</summary>
    ///
    /// ```text
    /// ensures rows: rows_left result ≡ map (row_array (array_of self.entry).items)
    ///     (view_rows RowMajor (array_of self.entry).view)
    /// ensures keeps_access: access_left result ≡ access_of self.entry
    /// ```
    /// [How to read it](crate::contracts)
    /// </details>
    #[inline]
    #[must_use]
    pub fn into_rows(self) -> LanesMut<'a, T, D> {
        let ArrayViewMut { cells, view } = self;
        let end = view.rows(Order::RowMajor).len();
        LanesMut { cells, view, begun: 0, end }
    }

    /// An iterator over the rows along an axis, in row-major order of the other coordinates, from both ends, each a part of its own, as
    /// those of `into_rows` are. It ends the part.
    ///
    /// Takes no memory, and time in proportion to the count of axes. A row takes the time of `Strided::nth_row`.
    ///
    /// Axis 0 of `[2,2]` over 5 6 7 8: the rows 5 7 and 6 8. ndarray's `lanes_mut`.
    ///
    /// # Errors
    ///
    /// `OutOfBounds` where there is no such axis.
    ///
    /// # Examples
    ///
    /// ```
    /// use ndarray_layout::{ArrayViewMut, Axis, Ix2, LayoutError};
    ///
    /// # fn main() -> Result<(), LayoutError> {
    /// let mut items = [5, 6, 7, 8];
    /// let columns = ArrayViewMut::from_shape(Ix2(2, 2), &mut items)?.into_lanes(Axis(0))?;
    /// for mut column in columns {
    ///     column[1] = column[0];
    /// }
    /// assert_eq!(items, [5, 6, 5, 6]);
    /// # Ok(())
    /// # }
    /// ```
    ///
    /// <details><summary>Contract (proved)</summary>
    ///
    /// ```text
    /// ensures fault: result_err result ≡ invert_fault (array_of self.entry).view.shape axis.0
    /// ensures rows: IfOk result (λ lanes. rows_left lanes
    ///     ≡ map (row_array (array_of self.entry).items)
    ///     (view_rows RowMajor (axis_last_of axis.0 (array_of self.entry).view)))
    /// ensures keeps_access: IfOk result (λ lanes. access_left lanes ≡ access_of self.entry)
    /// ```
    /// [How to read it](crate::contracts)
    /// </details>
    #[inline]
    pub fn into_lanes(self, axis: Axis) -> Result<LanesMut<'a, T, D>, ShapeError> {
        let ArrayViewMut { cells, view } = self;
        let view = with_axis_last(view, axis)?;
        Ok(ArrayViewMut::of_cells(cells, view).into_rows())
    }
}
