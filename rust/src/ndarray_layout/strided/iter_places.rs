// Made by `rust/erase` of `crates/ndarray_layout/src/strided/iter_places.rt`: edit that.
//! The places of a view one after another, without a list of them.

use crate::nd_base::{Lengths, Order};
use crate::ndarray_layout::strided::Strided;
use crate::ndarray_layout::strided::places_of_rows::PlacesOf;
use crate::ndarray_layout::strided::rows::Rows;
use crate::ndarray_layout::strided::slower_axes::LentAxes;

/// The places of a view that are still to come, in an order, from both ends: what `iter_places` returns.
pub type Places<'a> = PlacesOf<LentAxes<'a>>;

impl<D: Lengths> Strided<D> {
    /// An iterator over the places of all indices, in row-major order (the last axis moves fastest) or in
    /// column-major order (the first one does), which knows how many are left and gives the last ones as well.
    ///
    /// Takes no memory. A place costs an addition, from either end, and each row what it costs in `joined_rows`. Places
    /// that follow one another are a loop over a range.
    ///
    /// `[2,3]` with strides `[-3,1]` from 3: 3 4 5 0 1 2 in row-major order, 3 0 4 1 5 2 in column-major
    /// order. The project's own, in place of a loop of ndarray's `next_for` and `stride_offset`.
    ///
    /// # Examples
    ///
    /// ```
    /// use ndarray_layout::{CanIndexCheckMode, Ix2, LayoutError, Order, Strided, unsigned};
    ///
    /// # fn main() -> Result<(), LayoutError> {
    /// let view = Strided::new(Ix2(2, 3), Ix2(unsigned(-3), 1), 1, 6, CanIndexCheckMode::ReadOnly)?;
    /// assert!(view.iter_places(Order::RowMajor).eq([3, 4, 5, 0, 1, 2]));
    /// let mut places = view.iter_places(Order::ColumnMajor);
    /// assert_eq!((places.next(), places.len()), (Some(3), 5));
    /// assert!(places.eq([0, 4, 1, 5, 2]));
    /// # Ok(())
    /// # }
    /// ```
    ///
    /// <details><summary>Contract (proved)</summary>
    ///
    /// ```text
    /// ensures items: result ≡ view_places order self.now
    /// ensures in_order: EveryRun (YieldsFirstBy pos (λ left. left)) (λ turns. ItemsMapTo turns pos turns.from)
    /// ensures is_view: IsView self.now
    /// ```
    /// [How to read it](crate::contracts)
    /// </details>
    #[inline]
    #[must_use]
    pub fn iter_places(&self, order: Order) -> Places<'_> {
        let rows = Rows::of_places(order, self.start, self.dim.slice(), self.strides.slice());
        PlacesOf::new(rows)
    }
}
