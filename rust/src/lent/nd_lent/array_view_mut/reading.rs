// Made by `rust/erase` of `crates/nd_lent/src/array_view_mut/reading.rt`: edit that.
//! The items of a part one after another, each lent to be read, without a list of them.

use crate::lent::nd_items::{Iter, IterOf};
use crate::lent::nd_lent::array_view::ArrayView;
use crate::lent::nd_lent::array_view_mut::ArrayViewMut;
use crate::memory::AllocError;
use crate::ndarray_layout::{Lengths, Order};

impl<'a, T: Sized, D: Lengths> ArrayViewMut<'a, T, D> {
    /// The part as an array, to be read for as long as this one isn't written. Parts beside it may be written meanwhile.
    ///
    /// `[2]`, `[-1]` from 1 over 7 8 9: an array of 8 7. ndarray's `view`.
    ///
    /// # Errors
    ///
    /// Out of memory; never where the type fixes the count of axes or there are at most 4.
    ///
    /// # Examples
    ///
    /// ```
    /// use ndarray_layout::{ArrayViewMut, Axis, Ix2, LayoutError};
    ///
    /// # fn main() -> Result<(), LayoutError> {
    /// let mut items = [7, 8, 9, 10];
    /// let whole = ArrayViewMut::from_shape(Ix2(2, 2), &mut items)?;
    /// let (left, mut right) = whole.split_at(Axis(1), 1)?;
    /// right.assign(&left.try_view()?)?;
    /// assert_eq!(items, [7, 7, 9, 9]);
    /// # Ok(())
    /// # }
    /// ```
    ///
    /// <details><summary>Contract (proved)</summary>
    ///
    /// ```text
    /// ensures array: IfOk result (λ a. a ≡ array_of self.now)
    /// ensures memory: NeedsNoMemory D.NDIM (length (array_of self.now).view.shape) → IsOk result
    /// ```
    /// [How to read it](crate::contracts)
    /// </details>
    #[inline]
    pub fn try_view(&self) -> Result<ArrayView<'_, T, D>, AllocError> {
        let view = self.view.duplicate()?;
        Ok(ArrayView::of_reader(self.cells.shared(), view))
    }

    /// The items as a slice, to be read, where their places follow one another in row-major order; else `None`.
    ///
    /// Takes no memory, and time in proportion to the count of axes.
    ///
    /// `[2]`, `[1]` from 1 over 7 8 9: 8 9; with the stride `[-1]` `None`. ndarray's `as_slice`.
    ///
    /// # Examples
    ///
    /// ```
    /// use ndarray_layout::{Ix2, LayoutError, ArrayViewMut};
    ///
    /// # fn main() -> Result<(), LayoutError> {
    /// let mut items = [7, 8, 9, 10];
    /// let part = ArrayViewMut::from_shape(Ix2(2, 2), &mut items)?;
    /// assert_eq!(part.as_slice(), Some(&[7, 8, 9, 10][..]));
    /// assert_eq!(part.reversed_axes().as_slice(), None);
    /// # Ok(())
    /// # }
    /// ```
    ///
    /// <details><summary>Contract (proved)</summary>
    ///
    /// ```text
    /// ensures found: IsSome result ↔ IsStretch RowMajor (array_of self.now).view
    /// ensures items: IfSome result (λ items. map Some items.now ≡
    ///     map (item_at_place (array_of self.now).items)
    ///     (view_places RowMajor (array_of self.now).view))
    /// ```
    /// [How to read it](crate::contracts)
    /// </details>
    #[inline]
    #[must_use]
    pub fn as_slice(&self) -> Option<&[T]> {
        let places = self.view.stretch(Order::RowMajor)?;
        Some(self.cells.shared().slice(places.start, places.end - places.start))
    }

    /// An iterator over the items of all indices, in row-major order (the last axis moves fastest), each lent to be read. It knows how
    /// many are left.
    ///
    /// Takes no memory. An item takes the time of its place (`Strided::iter_places`).
    ///
    /// The transpose of `[2,2]` over 5 6 7 8: 5 7 6 8. ndarray's `iter`.
    ///
    /// # Examples
    ///
    /// ```
    /// use ndarray_layout::{ArrayViewMut, Ix2, LayoutError};
    ///
    /// # fn main() -> Result<(), LayoutError> {
    /// let mut items = [5, 6, 7, 8];
    /// let part = ArrayViewMut::from_shape(Ix2(2, 2), &mut items)?.reversed_axes();
    /// assert!(part.iter().eq(&[5, 7, 6, 8]));
    /// assert_eq!((part.iter().max(), part.iter().len()), (Some(&8), 4));
    /// # Ok(())
    /// # }
    /// ```
    ///
    /// <details><summary>Contract (proved)</summary>
    ///
    /// ```text
    /// ensures items: result ≡ map (item_at_place (array_of self.now).items)
    ///     (view_places RowMajor (array_of self.now).view)
    /// ensures count: length result ≡ size (array_of self.now).view.shape
    /// ensures in_order: EveryRun
    ///     (YieldsFirstBy (λ (item : Bor T). Some item.now) (λ (left : List (Option T)). left))
    ///     (λ turns. ItemsMapTo turns (λ (item : Bor T). Some item.now) turns.from)
    /// ```
    /// [How to read it](crate::contracts)
    /// </details>
    #[inline]
    #[must_use]
    pub fn iter(&self) -> Iter<'_, T> {
        IterOf::of_reader(self.cells.shared(), self.view.iter_places(Order::RowMajor))
    }
}
