// Made by `rust/erase` of `crates/nd_lent/src/array_view/totals.rt`: edit that.
//! What is known of all items of an array at once: their sum and product, and whether some or all of them pass a test.

use crate::lent::nd_lent::array_view::ArrayView;
use crate::lent::nd_loops::{Unsigned, nearest_view, sum_rows};
use crate::ndarray_layout::Lengths;

impl<T: Unsigned, D: Lengths> ArrayView<'_, T, D> {
    /// The sum of the items, an item as often as the array has indices for it; `None` where it passes the greatest `u64`.
    ///
    /// Time in proportion to the indices. Takes no memory. Goes over the items in the order in which they lie, as `fold_nearest`
    /// does: in a row whose items follow one another the sum is tested once for many items.
    ///
    /// `[2]` with the stride `[-1]` over 7 8 9: 15; of `u8` items too, since they are added as `u64`. ndarray's `sum`.
    ///
    /// # Examples
    ///
    /// ```
    /// use ndarray_layout::{ArrayView, Ix1, LayoutError, ShapeBuilder, unsigned};
    ///
    /// # fn main() -> Result<(), LayoutError> {
    /// let a = ArrayView::from_shape(Ix1(2).strides(Ix1(unsigned(-1)))?, &[7u8, 8, 9])?;
    /// assert_eq!(a.sum(), Some(15));
    /// let bytes = ArrayView::from_shape(Ix1(2), &[200u8, 100])?;
    /// assert_eq!(bytes.sum(), Some(300));
    /// let greatest = ArrayView::from_shape(Ix1(2), &[u64::MAX, 1])?;
    /// assert_eq!(greatest.sum(), None);
    /// # Ok(())
    /// # }
    /// ```
    ///
    /// <details><summary>Contract (proved)</summary>
    ///
    /// ```text
    /// ensures fits: IsSome result ↔ (sum_by (λ item. option_map_or T.number item 0)
    ///     (map (item_at_place self.now.items) (view_places RowMajor self.now.view)) < 2 ^ 64)
    /// ensures sum: IfSome result (λ total. total ≡ sum_by (λ item. option_map_or T.number item 0)
    ///     (map (item_at_place self.now.items) (view_places RowMajor self.now.view)))
    /// ```
    /// [How to read it](crate::contracts)
    /// </details>
    #[inline]
    #[must_use]
    pub fn sum(&self) -> Option<u64> {
        let nearest = nearest_view(self.strided());
        sum_rows(self.rows_in(&nearest))
    }

    /// The product of the items, an item as often as the array has indices for it; `None` where it passes the greatest `u64`. Without
    /// items 1.
    ///
    /// Time in proportion to the indices. Takes no memory. Goes over the longest rows that the axes allow, as `fold` does.
    ///
    /// `[2]` with the stride `[-1]` over 7 8 9: 56; of `u8` items too. Of three items of 2^32 `None`, and 0 if a fourth one is 0.
    /// ndarray's `product`.
    ///
    /// # Examples
    ///
    /// ```
    /// use ndarray_layout::{ArrayView, Ix1, LayoutError, ShapeBuilder, unsigned};
    ///
    /// # fn main() -> Result<(), LayoutError> {
    /// let a = ArrayView::from_shape(Ix1(2).strides(Ix1(unsigned(-1)))?, &[7u8, 8, 9])?;
    /// assert_eq!(a.product(), Some(56));
    /// let items = [1 << 32, 1 << 32, 1 << 32, 0_u64];
    /// assert_eq!(ArrayView::from_shape(Ix1(3), &items)?.product(), None);
    /// assert_eq!(ArrayView::from_shape(Ix1(4), &items)?.product(), Some(0));
    /// # Ok(())
    /// # }
    /// ```
    ///
    /// <details><summary>Contract (proved)</summary>
    ///
    /// ```text
    /// ensures fits: IsSome result ↔ (size (map (λ item. option_map_or T.number item 1)
    ///     (map (item_at_place self.now.items) (view_places RowMajor self.now.view))) < 2 ^ 64)
    /// ensures product: IfSome result (λ product. product ≡ size (map (λ item. option_map_or T.number item 1)
    ///     (map (item_at_place self.now.items) (view_places RowMajor self.now.view))))
    /// ```
    /// [How to read it](crate::contracts)
    /// </details>
    #[inline]
    #[must_use]
    pub fn product(&self) -> Option<u64> {
        let times = |product: Option<u64>, item: &T| match (product, item.to_u64()) {
            (_, 0) => Some(0),
            (Some(product), number) => product.checked_mul(number),
            (None, _) => None,
        };
        self.fold(Some(1), times)
    }
}

impl<T, D: Lengths> ArrayView<'_, T, D> {
    /// Whether a function returns `true` at some item. It is called at one item after another, in row-major order, and at none
    /// after the first one that passes. Without items `false`.
    ///
    /// Goes over the longest rows that the axes allow, as `fold` does.
    ///
    /// `[2]` with the stride `[-1]` over 7 8 9, by `any(|item| *item > 8)`: `false`. std's `any` of `iter()`.
    ///
    /// # Conditions
    ///
    /// The function may be called with any item of the array, whatever it was called with before. Where it panics, so
    /// does this call.
    ///
    /// # Examples
    ///
    /// ```
    /// use ndarray_layout::{ArrayView, Ix1, LayoutError, ShapeBuilder, unsigned};
    ///
    /// # fn main() -> Result<(), LayoutError> {
    /// let a = ArrayView::from_shape(Ix1(2).strides(Ix1(unsigned(-1)))?, &[7, 8, 9])?;
    /// assert!(!a.any(|item| *item > 8));
    /// assert!(a.any(|item| *item > 7));
    /// # Ok(())
    /// # }
    /// ```
    ///
    /// <details><summary>Contract (proved)</summary>
    ///
    /// ```text
    /// requires callable: CallableWhile lends F.FnMut false
    ///     (map (item_at_place self.now.items) (view_places RowMajor self.now.view)) f
    /// ensures ran: (left : List (Option T)) × ChecksAny lends F.FnMut
    ///     (map (item_at_place self.now.items) (view_places RowMajor self.now.view)) f result left
    /// ```
    /// [How to read it](crate::contracts)
    /// </details>
    #[inline]
    pub fn any<F: FnMut(&T) -> bool>(&self, f: F) -> bool {
        self.search(true, f)
    }

    /// Whether a function returns `true` at each item. It is called at one item after another, in row-major order, and at none
    /// after the first one that fails. Without items `true`.
    ///
    /// Goes over the longest rows that the axes allow, as `fold` does.
    ///
    /// `[2]` with the stride `[-1]` over 7 8 9, by `all(|item| *item > 6)`: `true`. std's `all` of `iter()`.
    ///
    /// # Conditions
    ///
    /// The function may be called with any item of the array, whatever it was called with before. Where it panics, so
    /// does this call.
    ///
    /// # Examples
    ///
    /// ```
    /// use ndarray_layout::{ArrayView, Ix1, LayoutError, ShapeBuilder, unsigned};
    ///
    /// # fn main() -> Result<(), LayoutError> {
    /// let a = ArrayView::from_shape(Ix1(2).strides(Ix1(unsigned(-1)))?, &[7, 8, 9])?;
    /// assert!(a.all(|item| *item > 6));
    /// assert!(!a.all(|item| *item > 7));
    /// # Ok(())
    /// # }
    /// ```
    ///
    /// <details><summary>Contract (proved)</summary>
    ///
    /// ```text
    /// requires callable: CallableWhile lends F.FnMut true
    ///     (map (item_at_place self.now.items) (view_places RowMajor self.now.view)) f
    /// ensures ran: (left : List (Option T)) × ChecksAll lends F.FnMut
    ///     (map (item_at_place self.now.items) (view_places RowMajor self.now.view)) f result left
    /// ```
    /// [How to read it](crate::contracts)
    /// </details>
    #[inline]
    pub fn all<F: FnMut(&T) -> bool>(&self, f: F) -> bool {
        !self.search(false, f)
    }
}
