// Made by `rust/erase` of `crates/nd_lent/src/array_view/folding.rt`: edit that.
//! A function that is called at each item of an array in turn, row by row.

use crate::lent::nd_lent::array_view::ArrayView;
use crate::lent::nd_loops::{fold_rows, nearest_view};
use crate::memory::prelude::Vec;
use crate::ndarray_layout::Lengths;

impl<T, D: Lengths> ArrayView<'_, T, D> {
    /// The last result of a function that is called at each item in turn, in row-major order, with the result before, first
    /// with `init`.
    ///
    /// It is what `iter().fold(init, f)` returns. Goes over the longest rows that the axes allow (`Strided::joined_rows`): one
    /// whose items follow one another is a loop over a slice.
    ///
    /// `a.fold(0, |sum, item| sum + item)` is 15. ndarray's `fold`.
    ///
    /// # Conditions
    ///
    /// The function may be called with any item of the array, after any result that it has returned. Where it panics,
    /// so does this call.
    ///
    /// # Examples
    ///
    /// ```
    /// use ndarray_layout::{ArrayView, Ix1, LayoutError, ShapeBuilder, unsigned};
    ///
    /// # fn main() -> Result<(), LayoutError> {
    /// let a = ArrayView::from_shape(Ix1(2).strides(Ix1(unsigned(-1)))?, &[7, 8, 9])?;
    /// assert_eq!(a.fold(0, |sum, item| sum + item), 15);
    /// assert_eq!(a.fold(0, |number, item| 10 * number + item), 87);
    /// # Ok(())
    /// # }
    /// ```
    ///
    /// <details><summary>Contract (proved)</summary>
    ///
    /// ```text
    /// requires callable: CallableInFold lends F.FnMut
    ///     (map (item_at_place self.now.items) (view_places RowMajor self.now.view)) f init
    /// ensures ran: FoldsItems lends F.FnMut
    ///     (map (item_at_place self.now.items) (view_places RowMajor self.now.view))
    ///     f init result
    /// ```
    /// [How to read it](crate::contracts)
    /// </details>
    #[inline]
    pub fn fold<B, F: FnMut(B, &T) -> B>(&self, init: B, mut f: F) -> B {
        let rows = self.joined_rows();
        fold_rows(rows, init, move |total, item| f(total, item))
    }

    /// The last result of a function that is called at each item, each index once, with the result before, first with `init`, in
    /// the order in which the items lie: that in which ndarray goes.
    ///
    /// It is `fold` for a function that needs no order. Takes no memory. With at most 6 axes it goes over the longest rows that the
    /// axes allow once they are turned and sorted (`Strided::nearest`), so that one that is transposed, mirrored or column-major is
    /// one slice as well, where its items lie side by side. Where an axis has the stride 0, or there are more axes, it is `fold`.
    ///
    /// `a.fold_nearest(0, |sum, item| sum + item)` is 15, from 7 to 8. ndarray's `fold`.
    ///
    /// # Conditions
    ///
    /// The function may be called with any item of the array, after any result that it has returned. Where it panics,
    /// so does this call.
    ///
    /// # Examples
    ///
    /// ```
    /// use ndarray_layout::{ArrayView, Ix1, LayoutError, ShapeBuilder, unsigned};
    ///
    /// # fn main() -> Result<(), LayoutError> {
    /// let a = ArrayView::from_shape(Ix1(2).strides(Ix1(unsigned(-1)))?, &[7, 8, 9])?;
    /// assert_eq!(a.fold_nearest(0, |sum, item| sum + item), 15);
    /// assert_eq!(a.fold_nearest(0, |number, item| 10 * number + item), 78);
    /// # Ok(())
    /// # }
    /// ```
    ///
    /// <details><summary>Contract (proved)</summary>
    ///
    /// ```text
    /// requires callable: InAnyOrder (λ items. CallableInFold lends F.FnMut items f init)
    ///     (map (item_at_place self.now.items) (view_places RowMajor self.now.view))
    /// ensures ran: InSomeOrder (λ items. FoldsItems lends F.FnMut items f init result)
    ///     (map (item_at_place self.now.items) (view_places RowMajor self.now.view))
    /// ```
    /// [How to read it](crate::contracts)
    /// </details>
    #[inline]
    pub fn fold_nearest<B, F: FnMut(B, &T) -> B>(&self, init: B, mut f: F) -> B {
        let nearest = nearest_view(self.strided());
        let rows = self.rows_in(&nearest);
        fold_rows(rows, init, move |total, item| f(total, item))
    }

    /// Calls a function at each item in turn, in row-major order.
    ///
    /// It is what `iter().for_each(f)` does, in the time of `fold`.
    ///
    /// Of `a`: at 8, then at 7. ndarray's `for_each`.
    ///
    /// # Conditions
    ///
    /// The function may be called with any item of the array, whatever it was called with before. Where it panics, so
    /// does this call.
    ///
    /// # Examples
    ///
    /// ```
    /// use ndarray_layout::{ArrayView, Ix1, LayoutError, ShapeBuilder, unsigned};
    ///
    /// # fn main() -> Result<(), LayoutError> {
    /// let a = ArrayView::from_shape(Ix1(2).strides(Ix1(unsigned(-1)))?, &[7, 8, 9])?;
    /// let mut items = Vec::new();
    /// a.for_each(|item| items.push(*item));
    /// assert_eq!(items, [8, 7]);
    /// # Ok(())
    /// # }
    /// ```
    ///
    /// <details><summary>Contract (proved)</summary>
    ///
    /// ```text
    /// requires callable: CallableInForEach lends F.FnMut
    ///     (map (item_at_place self.now.items) (view_places RowMajor self.now.view)) f
    /// ensures ran: CallsOnEach lends F.FnMut
    ///     (map (item_at_place self.now.items) (view_places RowMajor self.now.view)) f
    /// ```
    /// [How to read it](crate::contracts)
    /// </details>
    #[inline]
    pub fn for_each<F: FnMut(&T)>(&self, mut f: F) {
        let each = move |(), item: &T| {
            f(item);
        };
        self.fold((), each);
    }

    /// Calls a function at each item, each index once, in the order in which they lie: that in which ndarray goes.
    ///
    /// It is `for_each` for a function that needs no order, in the time of `fold_nearest`.
    ///
    /// Of `a`: at 7, then at 8. ndarray's `for_each`.
    ///
    /// # Conditions
    ///
    /// The function may be called with any item of the array, whatever it was called with before. Where it panics, so
    /// does this call.
    ///
    /// # Examples
    ///
    /// ```
    /// use ndarray_layout::{ArrayView, Ix1, LayoutError, ShapeBuilder, unsigned};
    ///
    /// # fn main() -> Result<(), LayoutError> {
    /// let a = ArrayView::from_shape(Ix1(2).strides(Ix1(unsigned(-1)))?, &[7, 8, 9])?;
    /// let mut items = Vec::new();
    /// a.for_each_nearest(|item| items.push(*item));
    /// assert_eq!(items, [7, 8]);
    /// # Ok(())
    /// # }
    /// ```
    ///
    /// <details><summary>Contract (proved)</summary>
    ///
    /// ```text
    /// requires callable: InAnyOrder (λ items. CallableInForEach lends F.FnMut items f)
    ///     (map (item_at_place self.now.items) (view_places RowMajor self.now.view))
    /// ensures ran: InSomeOrder (λ items. CallsOnEach lends F.FnMut items f)
    ///     (map (item_at_place self.now.items) (view_places RowMajor self.now.view))
    /// ```
    /// [How to read it](crate::contracts)
    /// </details>
    #[inline]
    pub fn for_each_nearest<F: FnMut(&T)>(&self, mut f: F) {
        let each = move |(), item: &T| {
            f(item);
        };
        self.fold_nearest((), each);
    }
}
