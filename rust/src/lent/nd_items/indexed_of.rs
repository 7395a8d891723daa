// Made by `rust/erase` of `crates/nd_items/src/indexed_of.rt`: edit that.
//! The items of an array with their indices one after another, lent to be read or to be written.

use crate::lent::nd_items::items::IterMut;
use crate::lent::nd_items::iterating::{IterOf, ViewIter};
use crate::lent::nd_items::next_index::NextIndex;
use crate::memory::AllocError;
use crate::ndarray_layout::{Dimension, Lengths, SlowerAxes};

/// Items that are lent one after another.
pub trait LentItems: Sized + Sized {
    /// What they are.
    type Of;

    /// One of them, lent.
    type Lent;

    /// The next item; `None` where none is left.
    ///
    /// <details><summary>Contract (proved)</summary>
    ///
    /// ```text
    /// ensures MatchOption result ((left self.old ≡ []) × (left self.new ≡ []))
    ///     (λ item. left self.old ≡ Some (value item) ∷ left self.new)
    /// ```
    /// [How to read it](crate::contracts)
    /// </details>
    fn lend(&mut self) -> Option<Self::Lent>;

    /// How many are left.
    ///
    /// <details><summary>Contract (proved)</summary>
    ///
    /// ```text
    /// ensures result ≡ length (left self.now)
    /// ```
    /// [How to read it](crate::contracts)
    /// </details>
    fn count_left(&self) -> usize;
}

impl<'a, T, A: SlowerAxes> LentItems for IterOf<'a, T, A> {
    type Of = T;

    type Lent = &'a T;

    #[inline(always)]
    fn lend(&mut self) -> Option<&'a T> {
        self.next()
    }

    #[inline(always)]
    fn count_left(&self) -> usize {
        self.len()
    }
}

impl<'a, T, D: Lengths> LentItems for IterMut<'a, T, D> {
    type Of = T;

    type Lent = &'a mut T;

    #[inline(always)]
    fn lend(&mut self) -> Option<&'a mut T> {
        Iterator::next(self)
    }

    #[inline(always)]
    fn count_left(&self) -> usize {
        self.len()
    }
}

/// The items of an array that are still to come, each with its index, in row-major order, lent: `IndexedIter` to be read,
/// `IndexedIterMut` to be written.
pub struct IndexedOf<I: LentItems, D: Lengths> {
    items: I,
    index: NextIndex<D>,
}

/// The items of an array that are still to come, each with its index, in row-major order, lent for as long as the data is. ndarray's
/// `IndexedIter`.
pub type IndexedIter<'a, T, D> = IndexedOf<ViewIter<'a, T, D>, D>;

/// The items of a part that are still to come, each with its index, in row-major order, lent to be written. ndarray's
/// `IndexedIterMut`.
pub type IndexedIterMut<'a, T, D> = IndexedOf<IterMut<'a, T, D>, D>;

impl<I: LentItems, D: Lengths> IndexedOf<I, D> {
    /// These items, with these indices.
    ///
    /// # Conditions
    ///
    /// The caller ensures that they are as many. Otherwise the behaviour is undefined.
    ///
    /// <details><summary>Contract (proved)</summary>
    ///
    /// ```text
    /// requires length index ≡ length (I.left items)
    /// ensures items: indexed_left result ≡ zip index (I.left items)
    /// ensures kept: result.items ≡ items
    /// ```
    /// [How to read it](crate::contracts)
    /// </details>
    #[inline]
    pub(in crate::lent) fn of_items(items: I, index: NextIndex<D>) -> Self {
        IndexedOf { items, index }
    }

    /// How many items are left.
    ///
    /// Of `[2,3]`: 6. ndarray's `len`.
    ///
    /// # Examples
    ///
    /// ```
    /// use ndarray_layout::{ArrayView, Ix2, LayoutError};
    ///
    /// # fn main() -> Result<(), LayoutError> {
    /// let table = ArrayView::from_shape(Ix2(2, 3), &[1, 2, 3, 4, 5, 6])?;
    /// let mut items = table.into_indexed_iter()?;
    /// assert_eq!((items.len(), items.nth(3), items.len()), (6, Some(((1, 0), &4)), 2));
    /// # Ok(())
    /// # }
    /// ```
    /// ```
    /// use ndarray_layout::{ArrayViewMut, Ix2, LayoutError};
    ///
    /// # fn main() -> Result<(), LayoutError> {
    /// let mut items = [1, 2, 3, 4, 5, 6];
    /// let part = ArrayViewMut::from_shape(Ix2(2, 3), &mut items)?;
    /// assert_eq!(part.into_indexed_items()?.len(), 6);
    /// # Ok(())
    /// # }
    /// ```
    ///
    /// <details><summary>Contract (proved)</summary>
    ///
    /// ```text
    /// ensures result ≡ length (indexed_left self.now)
    /// ```
    /// [How to read it](crate::contracts)
    /// </details>
    #[must_use]
    #[inline]
    pub fn len(&self) -> usize {
        self.items.count_left()
    }

    /// The items that are left, and their indices. For a `fold` row by row.
    ///
    /// <details><summary>Contract (proved)</summary>
    ///
    /// ```text
    /// ensures items: zip result.1 (I.left result.0) ≡ indexed_left self
    /// ensures count: length result.1 ≡ length (I.left result.0)
    /// ```
    /// [How to read it](crate::contracts)
    /// </details>
    #[inline]
    pub(crate) fn into_items_at(self) -> (I, NextIndex<D>) {
        let IndexedOf { items, index } = self;
        (items, index)
    }
}

impl<I: LentItems, D: Dimension> IndexedOf<I, D> {
    /// The next item, after its index; `None` where none is left. That items to be written keep what is written is tested, and in no
    /// clause.
    ///
    /// Takes the time of a place (`Strided::into_places`), and in all as much again for the indices.
    ///
    /// Of `[2,2]` over 5 6 7 8: 5 at (0, 0), then 6 at (0, 1), 7 at (1, 0), 8 at (1, 1), and then `None`. ndarray's `next`.
    ///
    /// # Errors
    ///
    /// Out of memory; never where the type fixes the count of axes, there are at most 4, or none is left. The iterator is unchanged
    /// after it.
    ///
    /// # Examples
    ///
    /// ```
    /// use ndarray_layout::{ArrayView, Ix2, LayoutError};
    ///
    /// # fn main() -> Result<(), LayoutError> {
    /// let columns = ArrayView::from_shape(Ix2(2, 2), &[5, 6, 7, 8])?.reversed_axes();
    /// let (mut items, mut found) = (columns.into_indexed_iter()?, vec![]);
    /// while let Some(((row, column), item)) = items.try_next()? {
    ///     found.push((row, column, *item));
    /// }
    /// assert_eq!(found, [(0, 0, 5), (0, 1, 7), (1, 0, 6), (1, 1, 8)]);
    /// # Ok(())
    /// # }
    /// ```
    /// ```
    /// use ndarray_layout::{ArrayViewMut, Ix2, LayoutError};
    ///
    /// # fn main() -> Result<(), LayoutError> {
    /// let mut items = [5, 6, 7, 8];
    /// let mut columns = ArrayViewMut::from_shape(Ix2(2, 2), &mut items)?.reversed_axes().into_indexed_items()?;
    /// while let Some(((_, column), item)) = columns.try_next()? {
    ///     *item += 10 * column;
    /// }
    /// assert_eq!(items, [5, 6, 17, 18]);
    /// # Ok(())
    /// # }
    /// ```
    ///
    /// <details><summary>Contract (proved)</summary>
    ///
    /// ```text
    /// ensures memory: All (λ pair. NeedsNoMemory D.FixedCount.NDIM (length pair.0)) (indexed_left self.old) →
    ///     IsOk result
    /// ensures unchanged: IfErr result (λ _. indexed_left self.new ≡ indexed_left self.old)
    /// ensures first: IfOk result (λ next. MatchOption next
    ///     ((indexed_left self.old ≡ []) × (indexed_left self.new ≡ []))
    ///     (λ pair. indexed_left self.old ≡
    ///     (D.Pattern.lens pair.0, Some (I.value pair.1)) ∷ indexed_left self.new))
    /// ```
    /// [How to read it](crate::contracts)
    /// </details>
    #[inline(always)]
    pub fn try_next(&mut self) -> Result<Option<(D::Pattern, I::Lent)>, AllocError> {
        let Some(index) = self.index.take()? else {
            return Ok(None);
        };
        match self.items.lend() {
            Some(item) => Ok(Some((index.into_pattern(), item))),
            None => Ok(None),
        }
    }
}
