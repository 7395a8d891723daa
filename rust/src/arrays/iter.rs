//! What the iterators over items that are lent have beside what is proved: their items are copied, and a loop over an array makes one.

use crate::nd_base::{Ix1, Lengths};
use crate::{ArrayView, ArrayViewMut, Items, Iter, IterMut, LentRow, OwnedArray, RowItems, ViewIter};

impl<'a, T: Copy> Iter<'a, T> {
    /// Copies of the items. `copied` of std's iterators, but its `collect` copies whole rows. Not proved.
    ///
    /// ```
    /// use ndarray_layout::*;
    ///
    /// let array = ArrayView::from_shape(Ix2(2, 2), &[1, 2, 3, 4])?;
    /// assert_eq!(array.t().iter().copied().collect::<Vec<_>>(), [1, 3, 2, 4]);
    /// # Ok::<(), LayoutError>(())
    /// ```
    #[inline]
    #[must_use]
    pub fn copied(self) -> Items<'a, T> {
        Items::new(self)
    }
}

impl<'a, T> LentRow<'a, T> {
    /// An iterator over the items of the row, which may outlive it. ndarray's `iter`. Not proved; `into_iter` is.
    ///
    /// ```
    /// use ndarray_layout::*;
    ///
    /// let sums = array![[1, 2, 3], [4, 5, 6]].rows().map(|row| row.iter().sum::<i32>()).collect::<Vec<_>>();
    /// assert_eq!(sums, [6, 15]);
    /// ```
    #[inline]
    pub fn iter(&self) -> RowItems<'a, T> {
        self.into_iter()
    }
}

/// The array of one axis of the items. ndarray's `FromIterator`. Where there is no memory, this ends as `collect` to a `Vec` does. Not proved.
impl<T> FromIterator<T> for OwnedArray<T, Ix1> {
    fn from_iter<I: IntoIterator<Item = T>>(items: I) -> Self {
        items.into_iter().collect::<alloc::vec::Vec<T>>().into()
    }
}

/// Loops over arrays: each with its parameters, what its items are, and which iterator is made of it.
macro_rules! loops {
    ($($(#[$doc:meta])* $array:ty: $item:ty, $iter:ident $self:ident => $made:expr;)*) => {$(
        $(#[$doc])*
        ///
        /// Not proved.
        impl<'a, T, D: Lengths> IntoIterator for $array {
            type Item = $item;

            type IntoIter = $iter<'a, T, D>;

            #[inline]
            fn into_iter($self) -> $iter<'a, T, D> {
                $made
            }
        }
    )*};
}

loops! {
    /// Iterates over the items in row-major order, lent for as long as the data is. Panics where an allocation fails, never for at
    /// most 4 axes.
    &ArrayView<'a, T, D>: &'a T, ViewIter self => self.view().into_iter();
    /// Iterates over the items in row-major order. Panics where an allocation fails, never for at most 4 axes.
    &'a ArrayViewMut<'_, T, D>: &'a T, ViewIter self => self.view().into_iter();
    /// Iterates over the items in row-major order, to be written for as long as they are lent. Takes no memory.
    ArrayViewMut<'a, T, D>: &'a mut T, IterMut self => self.into_items();
    /// Iterates over the items in row-major order, to be written. Panics where an allocation fails.
    &'a mut ArrayViewMut<'_, T, D>: &'a mut T, IterMut self => self.iter_mut();
    /// Iterates over the items in row-major order, to be written. Panics where an allocation fails.
    &'a mut OwnedArray<T, D>: &'a mut T, IterMut self => self.iter_mut();
}
