// Made by `rust/erase` of `crates/ndarray_layout/src/strided/into_places.rt`: edit that.
//! The places of a view one after another, where the iterator has the view.

use crate::nd_base::{Lengths, Order};
use crate::ndarray_layout::strided::Strided;
use crate::ndarray_layout::strided::places_of_rows::PlacesOf;
use crate::ndarray_layout::strided::slower_axes::KeptAxes;

/// The places of a view that are still to come, in an order, with the view, from both ends: what `into_places` returns.
pub type IntoPlaces<D> = PlacesOf<KeptAxes<D>>;

impl<D: Lengths> Strided<D> {
    /// The places of all indices, in an order: `iter_places`, where the iterator has the view.
    ///
    /// Takes no memory. A place costs an addition, from either end, and each row what it costs in `into_joined_rows`.
    ///
    /// `[2,3]` with strides `[-3,1]` from 3: 3 4 5 0 1 2 in row-major order, 3 0 4 1 5 2 in column-major order. The project's own.
    ///
    /// # Examples
    ///
    /// ```
    /// use ndarray_layout::{CanIndexCheckMode, IntoPlaces, Ix2, LayoutError, Order, Strided, unsigned};
    ///
    /// /// The view isn't lent, so a call may return its places.
    /// fn places(order: Order) -> Result<IntoPlaces<Ix2>, LayoutError> {
    ///     let view = Strided::new(Ix2(2, 3), Ix2(unsigned(-3), 1), 1, 6, CanIndexCheckMode::ReadOnly)?;
    ///     Ok(view.into_places(order))
    /// }
    ///
    /// # fn main() -> Result<(), LayoutError> {
    /// assert!(places(Order::RowMajor)?.eq([3, 4, 5, 0, 1, 2]));
    /// let mut left = places(Order::ColumnMajor)?;
    /// assert_eq!((left.next(), left.len()), (Some(3), 5));
    /// assert!(left.eq([0, 4, 1, 5, 2]));
    /// # Ok(())
    /// # }
    /// ```
    ///
    /// <details><summary>Contract (proved)</summary>
    ///
    /// ```text
    /// ensures items: result ≡ view_places order self
    /// ensures in_order: EveryRun (YieldsFirstBy pos (λ left. left)) (λ turns. ItemsMapTo turns pos turns.from)
    /// ```
    /// [How to read it](crate::contracts)
    /// </details>
    #[inline]
    #[must_use]
    pub fn into_places(self, order: Order) -> IntoPlaces<D> {
        PlacesOf::new(self.into_joined_rows(order))
    }
}
