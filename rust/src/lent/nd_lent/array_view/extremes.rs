// Made by `rust/erase` of `crates/nd_lent/src/array_view/extremes.rt`: edit that.
//! The least and the greatest item of an array.

use crate::lent::nd_lent::array_view::ArrayView;
use crate::ndarray_layout::Lengths;

impl<T: Copy + Ord, D: Lengths> ArrayView<'_, T, D> {
    /// The greatest item, of equal ones the last in row-major order; `None` where the array has no index.
    ///
    /// Time in proportion to the indices, by `fold`.
    ///
    /// `[2]` with the stride `[-1]` over 7 8 9: 8. std's `max` of `iter()`.
    ///
    /// # Examples
    ///
    /// ```
    /// use ndarray_layout::{ArrayView, Ix1, LayoutError, ShapeBuilder, unsigned};
    ///
    /// # fn main() -> Result<(), LayoutError> {
    /// let a = ArrayView::from_shape(Ix1(2).strides(Ix1(unsigned(-1)))?, &[7, 8, 9])?;
    /// assert_eq!(a.max(), Some(8));
    /// assert_eq!(ArrayView::from_shape(Ix1(0), &[7, 8, 9])?.max(), None);
    /// # Ok(())
    /// # }
    /// ```
    ///
    /// <details><summary>Contract (proved)</summary>
    ///
    /// ```text
    /// ensures found: IsSome result ↔ (0 < size self.now.view.shape)
    /// ensures greatest: IfSome result (IsFirstOf (λ one other. is_gt (T.cmp one other))
    ///     (map (item_at_place self.now.items) (view_places RowMajor self.now.view)))
    /// ensures last: IfSome result (HasNoEqualAfter T.cmp
    ///     (map (item_at_place self.now.items) (view_places RowMajor self.now.view)))
    /// ```
    /// [How to read it](crate::contracts)
    /// </details>
    #[inline]
    #[must_use]
    pub fn max(&self) -> Option<T> {
        let greater = |greatest: Option<T>, item: &T| match greatest {
            Some(greatest) => Some(greatest.max(*item)),
            None => Some(*item),
        };
        self.fold(None, greater)
    }

    /// The least item, of equal ones the first in row-major order; `None` where the array has no index.
    ///
    /// Time in proportion to the indices, by `fold`.
    ///
    /// `[2]` with the stride `[-1]` over 7 8 9: 7. std's `min` of `iter()`.
    ///
    /// # Examples
    ///
    /// ```
    /// use ndarray_layout::{ArrayView, Ix1, LayoutError, ShapeBuilder, unsigned};
    ///
    /// # fn main() -> Result<(), LayoutError> {
    /// let a = ArrayView::from_shape(Ix1(2).strides(Ix1(unsigned(-1)))?, &[7, 8, 9])?;
    /// assert_eq!(a.min(), Some(7));
    /// assert_eq!(ArrayView::from_shape(Ix1(0), &[7, 8, 9])?.min(), None);
    /// # Ok(())
    /// # }
    /// ```
    ///
    /// <details><summary>Contract (proved)</summary>
    ///
    /// ```text
    /// ensures found: IsSome result ↔ (0 < size self.now.view.shape)
    /// ensures least: IfSome result (IsFirstOf (λ one other. is_lt (T.cmp one other))
    ///     (map (item_at_place self.now.items) (view_places RowMajor self.now.view)))
    /// ensures first: IfSome result (HasNoEqualBefore T.cmp
    ///     (map (item_at_place self.now.items) (view_places RowMajor self.now.view)))
    /// ```
    /// [How to read it](crate::contracts)
    /// </details>
    #[inline]
    #[must_use]
    pub fn min(&self) -> Option<T> {
        let less = |least: Option<T>, item: &T| match least {
            Some(least) => Some(least.min(*item)),
            None => Some(*item),
        };
        self.fold(None, less)
    }
}
