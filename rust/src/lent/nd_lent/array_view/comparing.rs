// Made by `rust/erase` of `crates/nd_lent/src/array_view/comparing.rt`: edit that.
//! Whether two arrays have the same items.

use crate::lent::nd_access::LentRows;
use crate::lent::nd_lent::array_view::ArrayView;
use crate::lent::nd_loops::{EqualTo, have_equal_rows, nearest_rows_with, nearest_views};
use crate::memory::prelude::String;
use crate::ndarray_layout::Lengths;

impl<T, D: Lengths> ArrayView<'_, T, D> {
    /// Whether each item is equal to that at the same index of an array of the same shape, compared in the order in which
    /// those of this array lie.
    ///
    /// <details><summary>Contract (proved)</summary>
    ///
    /// ```text
    /// requires self.now.view.shape ≡ other.now.view.shape
    /// ensures result ≡ pointwise (both_equal T.equal_to)
    ///     (map (item_at_place self.now.items) (view_places RowMajor self.now.view))
    ///     (map (item_at_place other.now.items) (view_places RowMajor other.now.view))
    /// ```
    /// [How to read it](crate::contracts)
    /// </details>
    #[inline]
    fn has_equal_items<U>(&self, other: &ArrayView<'_, U, D>) -> bool
    where
        T: EqualTo<U>,
    {
        let nearest = nearest_views(self.strided(), other.strided());
        let (rows, others) = nearest_rows_with(self.strided(), other.strided(), &nearest);
        have_equal_rows(LentRows::new(self.reader(), rows), LentRows::new(other.reader(), others))
    }

    /// Whether another array has the same shape, and an equal item at each index. Spare items don't count.
    ///
    /// Time in proportion to the indices up to one where the items differ; none where the shapes do. Takes no memory. With at most 6
    /// axes it goes over the items in the order in which they lie here (`Strided::nearest_with`), but in row-major order where an
    /// axis has the stride 0, and so with more axes: rows whose items follow one another in both are compared as slices.
    ///
    /// `[2]` with the stride `[-1]` over 7 8 9, and `[2]` over 8 7: `true`. ndarray's `eq`.
    ///
    /// # Examples
    ///
    /// ```
    /// use ndarray_layout::{ArrayView, Ix1, LayoutError, ShapeBuilder, unsigned};
    ///
    /// # fn main() -> Result<(), LayoutError> {
    /// let a = ArrayView::from_shape(Ix1(2).strides(Ix1(unsigned(-1)))?, &[7, 8, 9])?;
    /// let forwards = ArrayView::from_shape(Ix1(2), &[8, 7])?;
    /// assert!(a.eq(&forwards) && a == forwards);
    /// assert!(!a.eq(&ArrayView::from_shape(Ix1(2), &[8, 9])?));
    /// let words = ["a", "b"].map(String::from);
    /// assert!(ArrayView::from_shape(Ix1(2), &words)?.eq(&ArrayView::from_shape(Ix1(2), &["a", "b"])?));
    /// # Ok(())
    /// # }
    /// ```
    ///
    /// <details><summary>Contract (proved)</summary>
    ///
    /// ```text
    /// ensures result ≡ are_equal T.equal_to self.now other.now
    /// ```
    /// [How to read it](crate::contracts)
    /// </details>
    #[inline]
    #[must_use]
    pub fn eq<U>(&self, other: &ArrayView<'_, U, D>) -> bool
    where
        T: EqualTo<U>,
    {
        self.dim().equal(other.dim()) && self.has_equal_items(other)
    }
}
