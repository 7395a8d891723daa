// Made by `rust/erase` of `crates/nd_lent/src/array_view_mut/items.rt`: edit that.
//! The items of a part one after another, with or without their indices, each lent to be written, without a list of them.

use crate::lent::nd_items::{IndexedIterMut, IndexedOf, IterMut, NextIndex};
use crate::lent::nd_lent::array_view_mut::ArrayViewMut;
use crate::memory::AllocError;
use crate::ndarray_layout::{Ix1, Lengths};

impl<'a, T: Sized, D: Lengths> ArrayViewMut<'a, T, D> {
    /// An iterator over the items of all indices, in row-major order (the last axis moves fastest), from both ends, each lent to be
    /// written for as long as the whole is. It knows how many are left. That they keep what is written is tested, and in no clause.
    ///
    /// Takes no memory. Items that follow one another cost what those of a slice do; else an item takes the time of its place
    /// (`Strided::into_places`), and `map_in_place` or rows as slices (`rows_mut`) take less time than a `for`.
    ///
    /// The transpose of `[2,2]` over 5 6 7 8: 5 7 6 8. ndarray's `into_iter` of a view to be written.
    ///
    /// # Examples
    ///
    /// ```
    /// use ndarray_layout::{ArrayViewMut, Ix2, LayoutError};
    ///
    /// # fn main() -> Result<(), LayoutError> {
    /// let mut items = [5, 6, 7, 8];
    /// let mut left = ArrayViewMut::from_shape(Ix2(2, 2), &mut items)?.reversed_axes().into_items();
    /// let (first, second) = (left.next(), left.next());
    /// assert_eq!((&first, &second, left.len()), (&Some(&mut 5), &Some(&mut 7), 2));
    /// for (item, number) in first.into_iter().chain(second).chain(left).zip(1..) {
    ///     *item = number;
    /// }
    /// assert_eq!(items, [1, 3, 2, 4]);
    /// # Ok(())
    /// # }
    /// ```
    ///
    /// <details><summary>Contract (proved)</summary>
    ///
    /// ```text
    /// ensures items: items_left result ≡ map (item_at_place (array_of self.entry).items)
    ///     (view_places RowMajor (array_of self.entry).view)
    /// ensures keeps_access: access_left result ≡ access_of self.entry
    /// ```
    /// [How to read it](crate::contracts)
    /// </details>
    #[inline]
    #[must_use]
    pub fn into_items(self) -> IterMut<'a, T, D> {
        let ArrayViewMut { cells, view } = self;
        IterMut::of_cells(cells, view)
    }
}

impl<'a, T: Sized, D: Lengths> IterMut<'a, T, D> {
    /// The items that come next and lie evenly, at once, as a part of their own: what is left of the row in progress, or else the
    /// next row; `None` after the last item.
    ///
    /// Takes no memory. Costs as much as an item.
    ///
    /// Of the items of `[2,2]` with strides `[3,1]` over 5 6 7 8 9, after one item: a part of 6, and then one of 8 9. The project's own.
    ///
    /// <details><summary>Contract (proved)</summary>
    ///
    /// ```text
    /// ensures row: MatchOption result ((items_left self.old ≡ []) × (items_left self.new ≡ []))
    ///     (λ row. items_left self.old ≡ items_of (array_of row) ++ items_left self.new)
    /// ensures some: IfSome result (λ row. items_of (array_of row) ≢ [])
    /// ```
    /// [How to read it](crate::contracts)
    /// </details>
    #[inline]
    #[must_use]
    pub fn next_row(&mut self) -> Option<ArrayViewMut<'a, T, Ix1>> {
        let (cells, view) = self.next_part()?;
        Some(ArrayViewMut::of_cells(cells, view))
    }

    /// The last items that lie evenly, at once, as a part of their own: what is left of the row in progress at the back, or else
    /// the last row; `None` before the first item.
    ///
    /// Takes no memory. Costs as much as an item from the back.
    ///
    /// Of the items of `[2,2]` with strides `[3,1]` over 5 6 7 8 9, without the last one: a part of 8, and then one of 5 6. The
    /// project's own.
    ///
    /// <details><summary>Contract (proved)</summary>
    ///
    /// ```text
    /// ensures row: MatchOption result ((items_left self.old ≡ []) × (items_left self.new ≡ []))
    ///     (λ row. items_left self.old ≡ items_left self.new ++ items_of (array_of row))
    /// ensures some: IfSome result (λ row. items_of (array_of row) ≢ [])
    /// ```
    /// [How to read it](crate::contracts)
    /// </details>
    #[inline]
    #[must_use]
    pub fn next_row_back(&mut self) -> Option<ArrayViewMut<'a, T, Ix1>> {
        let (cells, view) = self.next_part_back()?;
        Some(ArrayViewMut::of_cells(cells, view))
    }
}

impl<'a, T: Sized, D: Lengths> ArrayViewMut<'a, T, D> {
    /// An iterator over the items with their indices, in row-major order (the last axis moves fastest), each lent to be written for
    /// as long as the whole is. It ends the part.
    ///
    /// Takes time in proportion to the count of axes. An item takes that of `IndexedIterMut::try_next`.
    ///
    /// The transpose of `[2,2]` over 5 6 7 8: 5 at (0, 0), 7 at (0, 1), 6 at (1, 0), 8 at (1, 1). ndarray's `indexed_iter_mut`.
    ///
    /// # Errors
    ///
    /// Out of memory; never where the type fixes the count of axes or there are at most 4. The part is gone then.
    ///
    /// # Examples
    ///
    /// ```
    /// use ndarray_layout::{ArrayViewMut, Ix2, LayoutError};
    ///
    /// # fn main() -> Result<(), LayoutError> {
    /// let mut items = [0; 6];
    /// let rows = ArrayViewMut::from_shape(Ix2(2, 3), &mut items)?;
    /// for ((row, column), item) in rows.into_indexed_items()? {
    ///     *item = 10 * row + column;
    /// }
    /// assert_eq!(items, [0, 1, 2, 10, 11, 12]);
    /// # Ok(())
    /// # }
    /// ```
    ///
    /// <details><summary>Contract (proved)</summary>
    ///
    /// ```text
    /// ensures items: IfOk result (λ left. indexed_left left ≡ indexed_items (array_of self.entry))
    /// ensures keeps_access: IfOk result (λ left. access_left left.items ≡ access_of self.entry)
    /// ensures memory: NeedsNoMemory D.NDIM (length (array_of self.entry).view.shape) → IsOk result
    /// ```
    /// [How to read it](crate::contracts)
    /// </details>
    #[inline]
    pub fn into_indexed_items(self) -> Result<IndexedIterMut<'a, T, D>, AllocError> {
        let index = NextIndex::first(self.dim(), self.len())?;
        Ok(IndexedOf::of_items(self.into_items(), index))
    }
}
