// Made by `rust/erase` of `crates/nd_lent/src/array_view/items.rt`: edit that.
//! The items of an array one after another, with or without their indices, each lent, without a list of them.

use crate::lent::nd_items::{IndexedIter, IndexedOf, Iter, IterOf, NextIndex, ViewIter};
use crate::lent::nd_lent::array_view::ArrayView;
use crate::memory::AllocError;
use crate::memory::prelude::Vec;
use crate::ndarray_layout::{Lengths, Order};

impl<'a, T, D: Lengths> ArrayView<'a, T, D> {
    /// An iterator over the items of all indices, in row-major order (the last axis moves fastest), which knows how many
    /// are left and gives the last ones as well. Spare items aren't among them.
    ///
    /// Takes no memory, and lists nothing. Items that follow one another cost what those of a slice do; else an item takes the time of
    /// its place (`Strided::iter_places`). There `fold`, `for_each` and rows as slices (`rows`) take less time than a `for`, and
    /// `map_to_vec` less than `collect`.
    ///
    /// `a.iter()` gives 8 7. ndarray's `iter`.
    ///
    /// # Examples
    ///
    /// ```
    /// use ndarray_layout::{ArrayView, Ix1, LayoutError, ShapeBuilder, unsigned};
    ///
    /// # fn main() -> Result<(), LayoutError> {
    /// let a = ArrayView::from_shape(Ix1(2).strides(Ix1(unsigned(-1)))?, &[7, 8, 9])?;
    /// assert_eq!(a.iter().len(), 2);
    /// assert_eq!(a.iter().copied().collect::<Vec<i32>>(), [8, 7]);
    /// # Ok(())
    /// # }
    /// ```
    ///
    /// <details><summary>Contract (proved)</summary>
    ///
    /// ```text
    /// ensures items: result ≡ map (item_at_place self.now.items) (view_places RowMajor self.now.view)
    /// ensures count: length result ≡ size self.now.view.shape
    /// ensures in_order: EveryRun
    ///     (YieldsFirstBy (λ (item : Bor T). Some item.now) (λ (left : List (Option T)). left))
    ///     (λ turns. ItemsMapTo turns (λ (item : Bor T). Some item.now) turns.from)
    /// ```
    /// [How to read it](crate::contracts)
    /// </details>
    #[inline]
    #[must_use]
    pub fn iter(&self) -> Iter<'_, T> {
        IterOf::of_reader(self.reader(), self.strided().iter_places(Order::RowMajor))
    }
}

/// Iterates over the items in row-major order.
///
/// Takes no memory. An item takes the time of its place (`Strided::into_places`), as of `iter`.
///
/// `a.into_iter()` gives 8 7. ndarray's `into_iter` of a view.
impl<'a, T, D: Lengths> IntoIterator for ArrayView<'a, T, D> {
    type Item = &'a T;

    type IntoIter = ViewIter<'a, T, D>;

    #[inline]
    fn into_iter(self) -> ViewIter<'a, T, D> {
        let ArrayView { reader, view } = self;
        IterOf::of_reader(reader, view.into_places(Order::RowMajor))
    }
}

impl<'a, T, D: Lengths> ArrayView<'a, T, D> {
    /// An iterator over the items with their indices, in row-major order (the last axis moves fastest), each lent for as long as the
    /// data is. It ends the array.
    ///
    /// Takes time in proportion to the count of axes. An item takes that of `IndexedIter::try_next`.
    ///
    /// `a.into_indexed_iter()` gives 8 at 0 and 7 at 1. ndarray's `indexed_iter`.
    ///
    /// # Errors
    ///
    /// Out of memory; never where the type fixes the count of axes or there are at most 4.
    ///
    /// # Examples
    ///
    /// ```
    /// use ndarray_layout::{ArrayView, Ix2, LayoutError};
    ///
    /// # fn main() -> Result<(), LayoutError> {
    /// let rows = ArrayView::from_shape(Ix2(2, 2), &["a", "b", "c", "d"])?;
    /// let found = rows.into_indexed_iter()?.find(|(_, item)| **item == "c");
    /// assert_eq!(found, Some(((1, 0), &"c")));
    /// # Ok(())
    /// # }
    /// ```
    ///
    /// <details><summary>Contract (proved)</summary>
    ///
    /// ```text
    /// ensures items: IfOk result (λ left. indexed_left left ≡ indexed_items self.entry)
    /// ensures memory: NeedsNoMemory D.NDIM (length self.entry.view.shape) → IsOk result
    /// ```
    /// [How to read it](crate::contracts)
    /// </details>
    #[inline]
    pub fn into_indexed_iter(self) -> Result<IndexedIter<'a, T, D>, AllocError> {
        let index = NextIndex::first(self.dim(), self.len())?;
        Ok(IndexedOf::of_items(self.into_iter(), index))
    }
}
