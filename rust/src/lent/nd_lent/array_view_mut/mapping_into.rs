// Made by `rust/erase` of `crates/nd_lent/src/array_view_mut/mapping_into.rt`: edit that.
//! Items that a closure makes of those of an array, written to a part.

use crate::lent::nd_lent::array_view::ArrayView;
use crate::lent::nd_lent::array_view_mut::ArrayViewMut;
use crate::lent::nd_loops::{zip_nearest, zip_view};
use crate::memory::prelude::Vec;
use crate::ndarray_layout::{ErrorKind, Lengths, ShapeError, from_kind};

impl<T, D: Lengths> ArrayView<'_, T, D> {
    /// Writes at each index of a part of the same shape what a closure makes of the item here, in row-major order. Other items are
    /// unchanged.
    ///
    /// Takes no memory. Goes over the longest rows that the axes of both allow (`Strided::joined_rows_with`): two whose items
    /// follow one another are a loop over two slices; in others each index takes the time of its place in both.
    ///
    /// `|item| *item < 6` of 5 6 to `[2]` with the stride `[-1]`: the second item is `true`, and the first `false`. ndarray's
    /// `map`, which makes a new array, and `Zip::map_assign_into`.
    ///
    /// # Errors
    ///
    /// `IncompatibleShape` where the shapes differ; the items are unchanged, and the closure isn't called. (A shape that can be
    /// broadcast is an error too: `broadcast` comes first.)
    ///
    /// # Conditions
    ///
    /// The function may be called with any item of the array, whatever it was called with before. Where it panics, so
    /// does this call; items that it had written keep what they were given.
    ///
    /// # Examples
    ///
    /// ```
    /// use ndarray_layout::{ArrayView, Ix1, LayoutError, ArrayViewMut, ShapeBuilder, unsigned};
    ///
    /// # fn main() -> Result<(), LayoutError> {
    /// let numbers = ArrayView::from_shape(Ix1(2), &[5, 6])?;
    /// let mut items = [false, false];
    /// let mut small = ArrayViewMut::from_shape(Ix1(2).strides(Ix1(unsigned(-1)))?, &mut items)?;
    /// numbers.map_into(&mut small, |item| *item < 6)?;
    /// assert_eq!(items, [false, true]);
    /// # Ok(())
    /// # }
    /// ```
    ///
    /// <details><summary>Contract (proved)</summary>
    ///
    /// ```text
    /// requires self.now.view.shape ≡ (array_of to.old).view.shape →
    ///     CallableOnAllAt gives F.FnMut (row_major_items self.now) f
    /// ensures fits: IsOk result ↔ (self.now.view.shape ≡ (array_of to.old).view.shape)
    /// ensures fault: OnErr result (result_err result ≡ Some IncompatibleShape)
    /// ensures unchanged: OnErr result (array_of to.new ≡ array_of to.old)
    /// ensures ran: OnOk result (CallsMake (λ p x y q. CalledAt F.FnMut p x y q) f
    ///     (row_major_items self.now) (row_major_items (array_of to.new)))
    /// ensures mapped: OnOk result ((h : T → U) → ActsAsAt F.FnMut f h → HasItemsOf
    ///     (λ index. option_map h (item_at self.now index)) (array_of to.old) (array_of to.new))
    /// ensures view: (array_of to.new).view ≡ (array_of to.old).view
    /// ensures spare: KeepsSpare (array_of to.old) (array_of to.new)
    /// ensures keeps_access: access_of to.new ≡ access_of to.old
    /// ```
    /// [How to read it](crate::contracts)
    /// </details>
    #[inline]
    pub fn map_into<U: Sized, F: FnMut(&T) -> U>(
        &self,
        to: &mut ArrayViewMut<'_, U, D>,
        mut f: F,
    ) -> Result<(), ShapeError> {
        if !to.view.dim().equal(self.dim()) {
            return Err(from_kind(ErrorKind::IncompatibleShape));
        }
        let each = move |stored: &mut U, item: &T| {
            *stored = f(item);
        };
        let source = self.strided();
        zip_view(&mut to.cells, &to.view, self.reader(), source, each);
        Ok(())
    }

    /// Writes at each index of a part of the same shape what a closure makes of the item here, each once, in the order in which
    /// those of the part lie. Other items are unchanged.
    ///
    /// It is `map_into` for a closure that needs no order. Takes no memory. With at most 6 axes it goes over the longest rows
    /// that the axes of both allow once they are turned and sorted by the part's strides (`Strided::nearest_with`); with more axes
    /// as `map_into` does.
    ///
    /// `|item| *item < 6` of 5 6 to `[2]` with the stride `[-1]`: at 6, then at 5, and the second item is `true`. ndarray's
    /// `Zip::map_assign_into`.
    ///
    /// # Errors
    ///
    /// `IncompatibleShape` where the shapes differ; the items are unchanged, and the closure isn't called. (A shape that can be
    /// broadcast is an error too: `broadcast` comes first.)
    ///
    /// # Conditions
    ///
    /// The function may be called with any item of the array, whatever it was called with before. Where it panics, so
    /// does this call; items that it had written keep what they were given.
    ///
    /// # Examples
    ///
    /// ```
    /// use ndarray_layout::{ArrayView, Ix1, LayoutError, ArrayViewMut, ShapeBuilder, unsigned};
    ///
    /// # fn main() -> Result<(), LayoutError> {
    /// let numbers = ArrayView::from_shape(Ix1(2), &[5, 6])?;
    /// let mut are_small = [false; 2];
    /// let mut to = ArrayViewMut::from_shape(Ix1(2).strides(Ix1(unsigned(-1)))?, &mut are_small)?;
    /// let mut seen = Vec::new();
    /// numbers.map_into_nearest(&mut to, |item| {
    ///     seen.push(*item);
    ///     *item < 6
    /// })?;
    /// assert_eq!(are_small, [false, true]);
    /// assert_eq!(seen, [6, 5]);
    /// # Ok(())
    /// # }
    /// ```
    ///
    /// <details><summary>Contract (proved)</summary>
    ///
    /// ```text
    /// requires self.now.view.shape ≡ (array_of to.old).view.shape →
    ///     InAnyOrder (λ items. CallableOnAllAt gives F.FnMut items f)
    ///     (row_major_items self.now)
    /// ensures fits: IsOk result ↔ (self.now.view.shape ≡ (array_of to.old).view.shape)
    /// ensures fault: OnErr result (result_err result ≡ Some IncompatibleShape)
    /// ensures unchanged: OnErr result (array_of to.new ≡ array_of to.old)
    /// ensures ran: OnOk result (CallsMakeArrayInSomeOrder (λ p x y q. CalledAt F.FnMut p x y q) f
    ///     self.now (array_of to.new))
    /// ensures mapped: OnOk result ((h : T → U) → ActsAsAt F.FnMut f h → HasItemsOf
    ///     (λ index. option_map h (item_at self.now index)) (array_of to.old) (array_of to.new))
    /// ensures view: (array_of to.new).view ≡ (array_of to.old).view
    /// ensures spare: KeepsSpare (array_of to.old) (array_of to.new)
    /// ensures keeps_access: access_of to.new ≡ access_of to.old
    /// ```
    /// [How to read it](crate::contracts)
    /// </details>
    #[inline]
    pub fn map_into_nearest<U: Sized, F: FnMut(&T) -> U>(
        &self,
        to: &mut ArrayViewMut<'_, U, D>,
        mut f: F,
    ) -> Result<(), ShapeError> {
        if !to.view.dim().equal(self.dim()) {
            return Err(from_kind(ErrorKind::IncompatibleShape));
        }
        let each = move |stored: &mut U, item: &T| {
            *stored = f(item);
        };
        let source = self.strided();
        zip_nearest(&mut to.cells, &to.view, &self.reader(), source, each);
        Ok(())
    }
}
