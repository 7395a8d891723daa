// Made by `rust/erase` of `crates/ndarray_layout/src/strided/into_rows.rt`: edit that.
//! The rows of a view one after another, from both ends, where the iterator has the view.

use crate::nd_base::{Lengths, Order, signed};
use crate::ndarray_layout::strided::Strided;
use crate::ndarray_layout::strided::rows::{fastest_axis, joined_axis};
use crate::ndarray_layout::strided::rows_of::RowsOf;
use crate::ndarray_layout::strided::slower_axes::KeptAxes;

/// The rows of a view that are still to come, in an order, with the view, from both ends: what `into_rows` returns.
pub type StridedRows<D> = RowsOf<KeptAxes<D>>;

impl<D: Lengths> Strided<D> {
    /// The rows of the view, in an order: `rows`, where the iterator has the view.
    ///
    /// Takes no memory. A row costs an addition, from either end; past the end of the second axis it costs a division and two
    /// products for each axis but its own. Axes that lie evenly together count as one.
    ///
    /// `[2,3]` with strides `[-3,1]` from 3: in row-major order 3 places from 3 and 3 places from 0, by the stride 1; in
    /// column-major order 2 places from 3, from 4 and from 5, by -3. The project's own.
    ///
    /// # Examples
    ///
    /// ```
    /// use ndarray_layout::{CanIndexCheckMode, StridedRows, Ix2, LayoutError, Order, Row, Strided, unsigned};
    ///
    /// /// The view isn't lent, so a call may return its rows.
    /// fn rows(order: Order) -> Result<StridedRows<Ix2>, LayoutError> {
    ///     let view = Strided::new(Ix2(2, 3), Ix2(unsigned(-3), 1), 1, 6, CanIndexCheckMode::ReadOnly)?;
    ///     Ok(view.into_rows(order))
    /// }
    ///
    /// # fn main() -> Result<(), LayoutError> {
    /// let numbers = |row: Row| (row.start, row.stride, row.len);
    /// assert!(rows(Order::RowMajor)?.map(numbers).eq([(3, 1, 3), (0, 1, 3)]));
    /// assert!(rows(Order::ColumnMajor)?.rev().map(numbers).eq([(5, -3, 2), (4, -3, 2), (3, -3, 2)]));
    /// # Ok(())
    /// # }
    /// ```
    ///
    /// <details><summary>Contract (proved)</summary>
    ///
    /// ```text
    /// ensures items: result ≡ view_rows order self
    /// ensures in_order: YieldsInOrder (YieldsFirst (λ (left : List Row). left)) (λ left. left)
    /// ```
    /// [How to read it](crate::contracts)
    /// </details>
    #[inline]
    #[must_use]
    pub fn into_rows(self, order: Order) -> StridedRows<D> {
        let axis = fastest_axis(order, self.dim.slice(), self.strides.slice());
        let (slower, len, stride) = (axis.lens.len(), axis.len, signed(axis.stride));
        RowsOf::along(KeptAxes::new(order, self, slower), len, stride)
    }

    /// The places of the view as the longest rows that its axes allow: `joined_rows`, where the iterator has the view.
    ///
    /// Takes no memory. A row costs an addition, from either end; past the end of the next axis that isn't joined, a division and
    /// two products for each of those.
    ///
    /// `[2,2,3]` with strides `[20,3,1]` from 0, two rows of two pixels of 3 bytes: 6 places from 0 and 6 from 20, by the
    /// stride 1. The project's own.
    ///
    /// # Examples
    ///
    /// ```
    /// use ndarray_layout::{CanIndexCheckMode, Ix3, LayoutError, Order, Row, Strided};
    ///
    /// # fn main() -> Result<(), LayoutError> {
    /// let view = Strided::new(Ix3(2, 2, 3), Ix3(20, 3, 1), 1, 40, CanIndexCheckMode::ReadOnly)?;
    /// let mut rows = view.into_joined_rows(Order::RowMajor);
    /// let numbers = |row: Row| (row.start, row.stride, row.len);
    /// assert_eq!((rows.len(), rows.next_back().map(numbers)), (2, Some((20, 1, 6))));
    /// assert!(rows.map(numbers).eq([(0, 1, 6)]));
    /// # Ok(())
    /// # }
    /// ```
    ///
    /// <details><summary>Contract (proved)</summary>
    ///
    /// ```text
    /// ensures places: rows_places result ≡ view_places order self
    /// ensures some: All (λ row. 0 < row.len) result
    /// ensures longest: (other : Row) → BeginsAsRow (view_places order self) other
    ///     → All (λ row. other.len ≤ row.len) result
    /// ensures in_order: YieldsInOrder (YieldsFirst (λ (left : List Row). left)) (λ left. left)
    /// ensures is_view: IsView self
    /// ```
    /// [How to read it](crate::contracts)
    /// </details>
    #[inline]
    #[must_use]
    pub fn into_joined_rows(self, order: Order) -> StridedRows<D> {
        let axis = joined_axis(order, self.dim.slice(), self.strides.slice());
        let (slower, len, stride) = (axis.lens.len(), axis.len, signed(axis.stride));
        RowsOf::along(KeptAxes::new(order, self, slower), len, stride)
    }
}
