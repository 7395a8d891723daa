// Made by `rust/erase` of `crates/ndarray_layout/src/strided/stretch.rt`: edit that.
//! Places that follow one another.

use crate::nd_base::{Lengths, Order};
use crate::nd_dim::product;
use crate::nd_shape::{is_layout_c, is_layout_f};
use crate::ndarray_layout::strided::Strided;
use core::ops::Range;

/// Whether the places of all indices follow one another in an order, or there is no index.
///
/// # Conditions
///
/// The caller ensures what `is_layout_c` and `is_layout_f` ask for. Otherwise this call or a later one panics or
/// returns unspecified values.
///
/// <details><summary>Contract (proved)</summary>
///
/// ```text
/// requires same_count: length (D.list dim.now) ≡ length (D.list strides.now)
/// requires size_fits: nonzero_size (D.list dim.now) ≤ limit
/// ensures IsTrue result ↔ LiesInOrder order (D.list dim.now) (all_signed (D.list strides.now))
/// ```
/// [How to read it](crate::contracts)
/// </details>
#[inline(always)]
fn lies_in_order<D: Lengths>(order: Order, dim: &D, strides: &D) -> bool {
    match order {
        Order::RowMajor => is_layout_c(dim, strides),
        Order::ColumnMajor => is_layout_f(dim, strides),
    }
}

impl<D: Lengths> Strided<D> {
    /// The range of the view's places, where they follow one another without a gap in an order; `None` where
    /// they don't. Without an index it is `0..0`.
    ///
    /// Takes no memory, and time in proportion to the count of axes.
    ///
    /// `[2,3]`, `[3,1]` from 4: `4..10` in row-major order, `None` in column-major order. For ndarray's
    /// `as_slice` and `is_standard_layout`.
    ///
    /// # Examples
    ///
    /// ```
    /// use ndarray_layout::{CanIndexCheckMode, Ix2, LayoutError, Order, Strided};
    ///
    /// # fn main() -> Result<(), LayoutError> {
    /// let mode = CanIndexCheckMode::ReadOnly;
    /// let view = Strided::from_parts(4, Ix2(2, 3), Ix2(3, 1), 1, 10, mode)?;
    /// assert_eq!(view.stretch(Order::RowMajor), Some(4..10));
    /// assert_eq!(view.stretch(Order::ColumnMajor), None);
    /// # Ok(())
    /// # }
    /// ```
    ///
    /// <details><summary>Contract (proved)</summary>
    ///
    /// ```text
    /// ensures found: IsSome result ↔ IsStretch order self.now
    /// ensures start: IfSome result (λ places. places.start ≡ stretch_start self.now)
    /// ensures end: IfSome result (λ places. places.end ≡ stretch_start self.now + size self.now.shape)
    /// ensures in_bounds: IfSome result (λ places. (len : ℕ) → LiesWithin len self.now → places.end ≤ len)
    /// ```
    /// [How to read it](crate::contracts)
    /// </details>
    #[must_use]
    #[inline]
    pub fn stretch(&self, order: Order) -> Option<Range<usize>> {
        if !lies_in_order(order, &self.dim, &self.strides) {
            return None;
        }
        let size = product(self.dim.slice());
        let start = if size == 0 { 0 } else { self.start };
        Some(start..start + size)
    }
}
