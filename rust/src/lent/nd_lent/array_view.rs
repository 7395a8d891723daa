// Made by `rust/erase` of `crates/nd_lent/src/array_view.rt`: edit that.
//! Items that are kept elsewhere, lent as an array.

mod making;
mod rows;
mod folding;
mod steps;
mod arrays;
mod axis_chunks;
mod axis_iter;
mod blocks_iter;
mod comparing;
mod copying;
mod extremes;
mod folding_with;
mod items;
mod memory_order;
mod searching;
mod totals;

use crate::lent::nd_access::Reader;
use crate::memory::AllocError;
use crate::ndarray_layout::{Lengths, NdIndex, Order, Strided};
pub use arrays::Arrays;
pub use axis_chunks::AxisChunksIter;
pub use axis_iter::AxisIter;
pub use blocks_iter::BlocksIter;

/// Items of any type that are kept elsewhere and lent, with a view that has a place among them for each index. Two indices
/// may have one item, as after a broadcast. Items at no place of the view are spare ones, and no call reads them.
/// ndarray's `ArrayView`.
///
/// In the examples `a` is `[2]` with the stride `[-1]` over 7 8 9: (0) is 8, (1) is 7, and 9 is spare.
pub struct ArrayView<'a, T, D: Lengths> {
    reader: Reader<'a, T>,
    view: Strided<D>,
}

impl<'a, T, D: Lengths> ArrayView<'a, T, D> {
    /// The view: the shape, the strides and the place of the first index. Each place of it has an item.
    ///
    /// `a.strided()` is `[2]`, `[-1]` from 1. The project's own.
    ///
    /// # Examples
    ///
    /// ```
    /// use ndarray_layout::{ArrayView, Ix1, LayoutError, ShapeBuilder, unsigned};
    ///
    /// # fn main() -> Result<(), LayoutError> {
    /// let a = ArrayView::from_shape(Ix1(2).strides(Ix1(unsigned(-1)))?, &[7, 8, 9])?;
    /// assert_eq!(a.strided().start(), 1);
    /// assert_eq!((a.strided().dim(), a.strided().strides()), (&Ix1(2), &Ix1(unsigned(-1))));
    /// # Ok(())
    /// # }
    /// ```
    ///
    /// <details><summary>Contract (proved)</summary>
    ///
    /// ```text
    /// ensures view: result.now ≡ self.now.view
    /// ensures has_items: HasItems (length self.now.items) self.now.view
    /// ```
    /// [How to read it](crate::contracts)
    /// </details>
    #[must_use]
    #[inline]
    pub fn strided(&self) -> &Strided<D> {
        &self.view
    }

    /// The shape. ndarray's `raw_dim`, which copies it.
    ///
    /// # Examples
    ///
    /// ```
    /// use ndarray_layout::{ArrayView, Ix1, LayoutError, ShapeBuilder, unsigned};
    ///
    /// # fn main() -> Result<(), LayoutError> {
    /// let a = ArrayView::from_shape(Ix1(2).strides(Ix1(unsigned(-1)))?, &[7, 8, 9])?;
    /// assert_eq!(a.dim(), &Ix1(2));
    /// # Ok(())
    /// # }
    /// ```
    ///
    /// <details><summary>Contract (proved)</summary>
    ///
    /// ```text
    /// ensures list: D.list result.now ≡ self.now.view.shape
    /// ```
    /// [How to read it](crate::contracts)
    /// </details>
    #[must_use]
    #[inline]
    pub fn dim(&self) -> &D {
        self.view.dim()
    }

    /// How many indices the shape has; spare items don't count.
    ///
    /// `a.len()` is 2. ndarray's `len`.
    ///
    /// # Examples
    ///
    /// ```
    /// use ndarray_layout::{ArrayView, Ix1, LayoutError, ShapeBuilder, unsigned};
    ///
    /// # fn main() -> Result<(), LayoutError> {
    /// let a = ArrayView::from_shape(Ix1(2).strides(Ix1(unsigned(-1)))?, &[7, 8, 9])?;
    /// assert_eq!(a.len(), 2);
    /// # Ok(())
    /// # }
    /// ```
    ///
    /// <details><summary>Contract (proved)</summary>
    ///
    /// ```text
    /// ensures result ≡ size self.now.view.shape
    /// ```
    /// [How to read it](crate::contracts)
    /// </details>
    #[inline]
    #[must_use]
    pub fn len(&self) -> usize {
        self.view.len()
    }

    /// Whether the shape has no index. ndarray's `is_empty`.
    ///
    /// # Examples
    ///
    /// ```
    /// use ndarray_layout::{ArrayView, Ix2, LayoutError};
    ///
    /// # fn main() -> Result<(), LayoutError> {
    /// assert!(!ArrayView::from_shape(Ix2(1, 3), &[7, 8, 9])?.is_empty());
    /// assert!(ArrayView::from_shape(Ix2(0, 3), &[7, 8, 9])?.is_empty());
    /// # Ok(())
    /// # }
    /// ```
    ///
    /// <details><summary>Contract (proved)</summary>
    ///
    /// ```text
    /// ensures IsTrue result ↔ (size self.now.view.shape ≡ 0)
    /// ```
    /// [How to read it](crate::contracts)
    /// </details>
    #[inline]
    #[must_use]
    pub fn is_empty(&self) -> bool {
        self.view.is_empty()
    }

    /// The items, to be read by their places: each index of the view has one.
    ///
    /// <details><summary>Contract (proved)</summary>
    ///
    /// ```text
    /// ensures items: result.items ≡ self.now.items
    /// ensures read: IsRead result.marks (length result.items) self.now.view
    /// ```
    /// [How to read it](crate::contracts)
    /// </details>
    #[inline]
    pub(in crate::lent::nd_lent) fn reader(&self) -> Reader<'_, T> {
        self.reader.lent()
    }

    /// The items as a slice, where their places follow one another in row-major order; else `None`.
    ///
    /// Takes no memory, and time in proportion to the count of axes.
    ///
    /// `[2]`, `[1]` from 1 over 7 8 9: 8 9; `a.as_slice()` is `None`. ndarray's `as_slice` and `to_slice`.
    ///
    /// # Examples
    ///
    /// ```
    /// use ndarray_layout::{ArrayView, Ix2, LayoutError};
    ///
    /// # fn main() -> Result<(), LayoutError> {
    /// let items = [1, 2, 3, 4, 5, 6];
    /// let array = ArrayView::from_shape(Ix2(2, 3), &items)?;
    /// assert_eq!(array.as_slice(), Some(&items[..]));
    /// assert_eq!(array.reversed_axes().as_slice(), None);
    /// # Ok(())
    /// # }
    /// ```
    ///
    /// <details><summary>Contract (proved)</summary>
    ///
    /// ```text
    /// ensures found: IsSome result ↔ IsStretch RowMajor self.now.view
    /// ensures items: IfSome result (λ slice. map Some slice.now ≡
    ///     map (item_at_place self.now.items) (view_places RowMajor self.now.view))
    /// ```
    /// [How to read it](crate::contracts)
    /// </details>
    #[must_use]
    #[inline]
    pub fn as_slice(&self) -> Option<&'a [T]> {
        let places = self.view.stretch(Order::RowMajor)?;
        Some(self.reader.slice(places.start, places.end - places.start))
    }

    /// The item of an index; `None` where it is no index of the shape.
    ///
    /// `a.get(&0)` is 8, and `a.get(&2)` is `None`. ndarray's `get`.
    ///
    /// # Examples
    ///
    /// ```
    /// use ndarray_layout::{ArrayView, Ix1, LayoutError, ShapeBuilder, unsigned};
    ///
    /// # fn main() -> Result<(), LayoutError> {
    /// let a = ArrayView::from_shape(Ix1(2).strides(Ix1(unsigned(-1)))?, &[7, 8, 9])?;
    /// assert_eq!(a.get(&0), Some(&8));
    /// assert_eq!(a.get(&2), None);
    /// # Ok(())
    /// # }
    /// ```
    ///
    /// <details><summary>Contract (proved)</summary>
    ///
    /// ```text
    /// ensures found: IsSome result ↔ IsTrue (is_index self.now.view.shape (I.index_list index.now))
    /// ensures item: option_copied result ≡ item_at self.now (I.index_list index.now)
    /// ```
    /// [How to read it](crate::contracts)
    /// </details>
    #[must_use]
    #[inline]
    pub fn get<I: NdIndex<D>>(&self, index: &I) -> Option<&'a T> {
        let place = self.view.place(index)?;
        Some(self.reader.get(place))
    }

    /// An array that lends the same items, with a shape and strides of its own.
    ///
    /// In place of ndarray's `Clone`.
    ///
    /// # Errors
    ///
    /// Out of memory; never where the type fixes the count of axes or there are at most 4.
    ///
    /// # Examples
    ///
    /// ```
    /// use ndarray_layout::{ArrayView, Axis, Ix1, LayoutError, ShapeBuilder, unsigned};
    ///
    /// # fn main() -> Result<(), LayoutError> {
    /// let a = ArrayView::from_shape(Ix1(2).strides(Ix1(unsigned(-1)))?, &[7, 8, 9])?;
    /// let mut inverted = a.duplicate()?;
    /// inverted.invert_axis(Axis(0))?;
    /// assert_eq!((inverted.to_vec()?, a.to_vec()?), (vec![7, 8], vec![8, 7]));
    /// # Ok(())
    /// # }
    /// ```
    ///
    /// <details><summary>Contract (proved)</summary>
    ///
    /// ```text
    /// ensures array: IfOk result (λ a. a ≡ self.now)
    /// ensures memory: NeedsNoMemory D.NDIM (length self.now.view.shape) → IsOk result
    /// ```
    /// [How to read it](crate::contracts)
    /// </details>
    #[inline]
    pub fn duplicate(&self) -> Result<Self, AllocError> {
        let view = self.view.duplicate()?;
        Ok(ArrayView { reader: self.reader.copied(), view })
    }
}
