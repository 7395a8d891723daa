//! Iterators: over the indices of shapes of any number of axes, and what iterators print.

use super::OUT_OF_MEMORY;
use crate::nd_base::{IxDyn, Lengths, new_ixdyn};
use crate::nd_dim::Dimension;
use crate::nd_shape::{IndexCursor, IndexCursorF, IndicesIter, IndicesIterF};
use crate::ndarray_layout::{IntoPlaces, Places, Rows};
use crate::{IntoRows, Items, Iter, IterMut, LanesMut, LentRows, RowItems, ViewIter};
use core::iter::FusedIterator;

/// What prints how many items are left: its generics, and its type.
macro_rules! printed {
    ($([$($generics:tt)*] $name:ident$(<$($of:tt),*>)?;)*) => {$(
        /// Not proved.
        impl<$($generics)*> core::fmt::Debug for $name$(<$($of),*>)? {
            fn fmt(&self, f: &mut core::fmt::Formatter<'_>) -> core::fmt::Result {
                f.debug_struct(stringify!($name)).field("left", &self.len()).finish_non_exhaustive()
            }
        }
    )*};
}
pub(crate) use printed;

printed! {
    [] Places<'_>;
    [D: Lengths] IntoPlaces<D>;
    [] Rows<'_>;
    [T: Copy] Items<'_, T>;
    [T] Iter<'_, T>;
    [T] LentRows<'_, T>;
    [T, D: Lengths] ViewIter<'_, T, D>;
    [T, D: Lengths] IntoRows<'_, T, D>;
    [T] RowItems<'_, T>;
    [T, D: Lengths] IterMut<'_, T, D>;
    [T, D: Lengths] LanesMut<'_, T, D>;
    [D: Dimension] IndicesIter<D>;
    [D: Dimension] IndicesIterF<D>;
}

/// Iterator over copies of the indices that a cursor lends: over those of a shape of any number of axes. What a `for` loop
/// over a cursor makes; `IndicesIter` is over `IxDyn` too. Not proved.
///
/// An item takes time in proportion to the count of axes.
///
/// # Panics
///
/// Where an allocation fails; never for at most 4 axes.
///
/// ```
/// use ndarray_layout::{AllocError, IndexCursor, IxDyn};
///
/// # fn main() -> Result<(), AllocError> {
/// let cursor = IndexCursor::new(IxDyn(&[2, 2]))?;
/// let indices = [IxDyn(&[0, 0]), IxDyn(&[0, 1]), IxDyn(&[1, 0]), IxDyn(&[1, 1])];
/// assert!(cursor.into_iter().eq(indices));
/// # Ok(())
/// # }
/// ```
#[derive(Debug)]
pub struct IndexCopies<C> {
    cursor: C,
}

/// The traits of a cursor and of the iterator over it.
macro_rules! copies {
    ($cursor:ident) => {
        printed! { [] $cursor; }

        /// Not proved.
        impl IntoIterator for $cursor {
            type Item = IxDyn;

            type IntoIter = IndexCopies<$cursor>;

            fn into_iter(self) -> IndexCopies<$cursor> {
                IndexCopies { cursor: self }
            }
        }

        /// Not proved.
        impl Iterator for IndexCopies<$cursor> {
            type Item = IxDyn;

            fn next(&mut self) -> Option<IxDyn> {
                self.cursor.next().map(|index| new_ixdyn(index).expect(OUT_OF_MEMORY))
            }

            fn size_hint(&self) -> (usize, Option<usize>) {
                (self.cursor.len(), Some(self.cursor.len()))
            }
        }

        /// Not proved.
        impl ExactSizeIterator for IndexCopies<$cursor> {}

        /// Not proved.
        impl FusedIterator for IndexCopies<$cursor> {}
    };
}

copies!(IndexCursor);
copies!(IndexCursorF);
