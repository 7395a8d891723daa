// Made by `rust/erase` of `crates/nd_lent/src/array_view/memory_order.rt`: edit that.
//! The items of an array as they are stored, whatever the order of its axes.

use crate::lent::nd_lent::array_view::ArrayView;
use crate::lent::nd_lent::memory_range::memory_range;
use crate::ndarray_layout::Dimension;

impl<'a, T, D: Dimension> ArrayView<'a, T, D> {
    /// The items as they are stored, from the lowest place on, where no two indices alias and their places are consecutive numbers;
    /// else `None`. Without an index it is an empty slice.
    ///
    /// Takes no memory, and time in proportion to the square of the count of axes at most.
    ///
    /// `a.as_slice_memory_order()` is 7 8; with the stride `[2]` from 0 it is `None`. ndarray's `as_slice_memory_order`.
    ///
    /// # Examples
    ///
    /// ```
    /// use ndarray_layout::{ArrayView, Axis, Ix2, LayoutError};
    ///
    /// # fn main() -> Result<(), LayoutError> {
    /// let items = [1, 2, 3, 4, 5, 6];
    /// let mut array = ArrayView::from_shape(Ix2(2, 3), &items)?.reversed_axes();
    /// array.invert_axis(Axis(0))?;
    /// assert_eq!(array.as_slice_memory_order(), Some(&items[..]));
    /// assert_eq!(array.index_axis(Axis(0), 1)?.as_slice_memory_order(), None);
    /// # Ok(())
    /// # }
    /// ```
    ///
    /// <details><summary>Contract (proved)</summary>
    ///
    /// ```text
    /// ensures found: IsSome result ↔ FillsInterval self.now.view.shape self.now.view.strides
    /// ensures items: IfSome result (λ slice. slice.now ≡ items_in_memory_order self.now)
    /// ```
    /// [How to read it](crate::contracts)
    /// </details>
    #[inline]
    #[must_use]
    pub fn as_slice_memory_order(&self) -> Option<&'a [T]> {
        let (start, len) = memory_range(&self.view)?;
        Some(self.reader.slice(start, len))
    }
}
