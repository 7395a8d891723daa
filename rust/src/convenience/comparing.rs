//! Arrays as values that are compared and hashed: by their shapes and items, whatever their layouts are.

use crate::nd_base::Lengths;
use crate::{ArrayView, ArrayViewMut, OwnedArray};
use core::hash::{Hash, Hasher};

/// Equality of each type with others.
macro_rules! compared {
    ($([$one:ty] $($other:ty),*;)*) => {$($(
        /// Whether both have one shape and, at each index, equal items. Layouts and spare items don't count. Rows whose items
        /// lie side by side are compared as slices. Not proved, but for `ArrayView::eq`, which it calls.
        ///
        /// ```
        /// use ndarray_layout::{ArrayView, ArrayViewMut, Ix1, LayoutError, OwnedArray};
        ///
        /// # fn main() -> Result<(), LayoutError> {
        /// let (numbers, mut others) = ([1, 2], [1, 2]);
        /// let view = ArrayView::from_shape(Ix1(2), &numbers)?;
        /// let mut view_mut = ArrayViewMut::from_shape(Ix1(2), &mut others)?;
        /// assert_eq!(view, view_mut);
        /// view_mut.fill(3);
        /// assert_ne!(OwnedArray::from_shape_vec(Ix1(2), vec![1, 2])?, view_mut);
        /// # Ok(())
        /// # }
        /// ```
        impl<T: PartialEq<U>, U, D: Lengths> PartialEq<$other> for $one {
            fn eq(&self, other: &$other) -> bool {
                ArrayView::eq(&self.view(), &other.view())
            }
        }
    )*)*};
}

compared! {
    [ArrayView<'_, T, D>] ArrayView<'_, U, D>, ArrayViewMut<'_, U, D>, OwnedArray<U, D>;
    [ArrayViewMut<'_, T, D>] ArrayView<'_, U, D>, ArrayViewMut<'_, U, D>, OwnedArray<U, D>;
    [OwnedArray<T, D>] ArrayView<'_, U, D>, ArrayViewMut<'_, U, D>, OwnedArray<U, D>;
}

/// What each type has whose items have it.
macro_rules! valued {
    ($($array:ty),*) => {$(
        /// Not proved.
        impl<T: Eq, D: Lengths> Eq for $array {}

        /// Hashes the shape and the items, in row-major order, so that equal arrays have equal hashes. Not proved.
        impl<T: Hash, D: Lengths> Hash for $array {
            fn hash<H: Hasher>(&self, state: &mut H) {
                self.dim().slice().hash(state);
                self.view().into_iter().for_each(|item| item.hash(state));
            }
        }
    )*};
}

valued!(ArrayView<'_, T, D>, ArrayViewMut<'_, T, D>, OwnedArray<T, D>);
