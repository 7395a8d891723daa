//! The arrays and the chunks along an axis, the blocks of a shape, and items with their indices, as iterators of std, which panic where
//! an allocation fails.

use crate::ArrayView;
use crate::convenience::{OUT_OF_MEMORY, printed};
use crate::nd_base::{Axis, ErrorKind, LayoutError, from_kind};
use crate::nd_dim::Dimension;
use crate::nd_lent::{ArrayViewMut, Arrays, IndexedIter, IndexedIterMut, Parts, Views};
use core::iter::FusedIterator;

/// Iterators whose `try_next` is proved, each with the bound of its dimension or views, its item, and the macro of what its `Iterator` has besides.
macro_rules! iterates_forwards {
    ($($name:ident $bound:ident $item:ty $(, $skip:ident)?;)*) => {$(
        /// Panics where an allocation fails, never for at most 4 axes. Not proved.
        impl<'a, T, D: $bound> Iterator for $name<'a, T, D> {
            type Item = $item;

            #[inline]
            fn next(&mut self) -> Option<$item> {
                self.try_next().expect(OUT_OF_MEMORY)
            }

            #[inline]
            fn size_hint(&self) -> (usize, Option<usize>) {
                (self.len(), Some(self.len()))
            }

            $(crate::arrays::$skip!();)?
        }

        /// Not proved.
        impl<T, D: $bound> ExactSizeIterator for $name<'_, T, D> {}

        /// Not proved.
        impl<T, D: $bound> FusedIterator for $name<'_, T, D> {}

        printed! { [T, D: $bound] $name<'_, T, D>; }
    )*};
}

/// Those whose `try_next_back` is proved as well.
macro_rules! iterates {
    ($($name:ident $bound:ident $item:ty;)*) => {$(
        iterates_forwards! { $name $bound $item, skip; }

        /// Panics as `next`. Not proved.
        impl<'a, T, D: $bound> DoubleEndedIterator for $name<'a, T, D> {
            #[inline]
            fn next_back(&mut self) -> Option<$item> {
                self.try_next_back().expect(OUT_OF_MEMORY)
            }

            crate::arrays::skip_back!();
        }
    )*};
}

iterates! {
    Arrays Views ArrayView<'a, T, D::Dim>;
    Parts Views ArrayViewMut<'a, T, D::Dim>;
}

iterates_forwards! {
    IndexedIter Dimension (D::Pattern, &'a T), fold_indexed;
    IndexedIterMut Dimension (D::Pattern, &'a mut T), fold_indexed;
}

/// Errors: `OutOfBounds` where a shape has no such axis.
pub(crate) fn check_axis(shape: &[usize], axis: Axis) -> Result<(), LayoutError> {
    shape.get(axis.index()).map(|_| ()).ok_or(LayoutError::Shape(from_kind(ErrorKind::OutOfBounds)))
}

/// Errors: that of `check_axis`; `Unsupported` for chunks of 0 coordinates.
pub(crate) fn check_chunks(shape: &[usize], axis: Axis, size: usize) -> Result<(), LayoutError> {
    check_axis(shape, axis)?;
    (size > 0).then_some(()).ok_or(LayoutError::Shape(from_kind(ErrorKind::Unsupported)))
}
