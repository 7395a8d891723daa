// Made by `rust/erase` of `crates/nd_owned/src/iterating.rt`: edit that.
//! The items of an array one after another, without a list of them.

use crate::lent::nd_lent::Iter;
use crate::lent::nd_owned::owned::OwnedArray;
use crate::memory::prelude::Vec;
use crate::ndarray_layout::Lengths;
use core::iter::FusedIterator;

/// Copies of the items of an array that are still to come, in row-major order of their indices.
pub struct Items<'a, T: Copy> {
    lent: Iter<'a, T>,
}

impl<'a, T: Copy> Items<'a, T> {
    /// An iterator over copies of the items that another one lends.
    ///
    /// Of one over 7 8 9 it gives 7 8 9. std's `copied`, as a type with a name.
    ///
    /// # Examples
    ///
    /// ```
    /// use ndarray_layout::{Items, Iter, Ix1, LayoutError, OwnedArray};
    ///
    /// # fn main() -> Result<(), LayoutError> {
    /// let array = OwnedArray::from_shape_vec(Ix1(3), vec![7, 8, 9])?;
    /// let lent = Iter::new(array.strided(), array.stored());
    /// assert_eq!(Items::new(lent).collect::<Vec<_>>(), [7, 8, 9]);
    /// # Ok(())
    /// # }
    /// ```
    ///
    /// <details><summary>Contract (proved)</summary>
    ///
    /// ```text
    /// ensures result ≡ lent.entry
    /// ```
    /// [How to read it](crate::contracts)
    /// </details>
    #[must_use]
    #[inline]
    pub fn new(lent: Iter<'a, T>) -> Self {
        Items { lent }
    }
}

impl<T: Copy> Iterator for Items<'_, T> {
    type Item = T;

    #[inline]
    fn next(&mut self) -> Option<T> {
        self.lent.next().copied()
    }

    #[inline]
    fn size_hint(&self) -> (usize, Option<usize>) {
        self.lent.size_hint()
    }

    crate::arrays::fold_items!();
}

impl<T: Copy> DoubleEndedIterator for Items<'_, T> {
    #[inline]
    fn next_back(&mut self) -> Option<T> {
        self.lent.next_back().copied()
    }
}

impl<T: Copy> ExactSizeIterator for Items<'_, T> {
    #[inline]
    fn len(&self) -> usize {
        self.lent.len()
    }
}

impl<T: Copy> FusedIterator for Items<'_, T> {}

impl<T: Copy, D: Lengths> OwnedArray<T, D> {
    /// An iterator over copies of the items of all indices, in row-major order (the last axis moves fastest), which
    /// knows how many are left. Spare items aren't among them.
    ///
    /// Takes no memory, and lists nothing. An item takes the time of its place (`Strided::iter_places`) and of a copy.
    ///
    /// `a.iter()` gives 8 7. ndarray's `iter`, which lends each item.
    ///
    /// # Examples
    ///
    /// ```
    /// use ndarray_layout::{Ix1, LayoutError, OwnedArray, ShapeBuilder, unsigned};
    ///
    /// # fn main() -> Result<(), LayoutError> {
    /// let a = OwnedArray::from_shape_vec(Ix1(2).strides(Ix1(unsigned(-1)))?, vec![7, 8, 9])?;
    /// assert_eq!(a.iter().len(), 2);
    /// assert_eq!(a.iter().collect::<Vec<_>>(), [8, 7]);
    /// # Ok(())
    /// # }
    /// ```
    ///
    /// <details><summary>Contract (proved)</summary>
    ///
    /// ```text
    /// ensures items: result ≡ map (item_at_place self.now.items) (view_places RowMajor self.now.view)
    /// ensures count: length result ≡ size self.now.view.shape
    /// ensures in_order: EveryRun (YieldsFirstBy Some (λ (left : List (Option T)). left))
    ///     (λ turns. ItemsMapTo turns Some turns.from)
    /// ensures owned: IsOwned (length self.now.items) self.now.view
    /// ```
    /// [How to read it](crate::contracts)
    /// </details>
    #[inline]
    #[must_use]
    pub fn iter(&self) -> Items<'_, T> {
        Items::new(Iter::new(self.strided(), self.stored()))
    }
}
