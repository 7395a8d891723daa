//! What may be read of an array of any number of axes.

use super::check_chunks;
use crate::convenience::OUT_OF_MEMORY;
use crate::nd_base::{Axis, LayoutError, Lengths, ShapeError};
use crate::nd_dim::Dimension;
use crate::{ArrayView, ArrayViewMut, AxisChunksIter, IndexedIter, IntoRows, OwnedArray};

/// The reads of one of the types of arrays, by `of_each!`.
macro_rules! reads {
    ($array:ident [$($of:tt)*] $lent:lifetime $again:ident $setup:expr) => {
        impl<$($of)* T, D: Lengths> $array<$($of)* T, D> {
            /// The array lent again, to be read: that of the items and the view as they are. ndarray's `view` and `reborrow`.
            /// Not proved.
            ///
            /// Takes no memory, or for an `IxDyn` of more than 4 axes that of the shape and the strides.
            ///
            /// # Panics
            ///
            /// Where an allocation fails; never where the type fixes the count of axes or there are at most 4.
            ///
            /// ```
            /// use ndarray_layout::*;
            ///
            #[doc = $setup]
            /// assert_eq!(array.view().reversed_axes().get(&(2, 1)), Some(&6));
            /// # Ok::<(), LayoutError>(())
            /// ```
            #[doc(alias = "reborrow")]
            #[inline]
            #[must_use]
            pub fn view(&self) -> ArrayView<$lent, T, D> {
                self.$again().expect(OUT_OF_MEMORY)
            }

            /// The item of the first index; `None` without one. ndarray's `first`. Not proved.
            ///
            /// # Panics
            ///
            /// As `view`.
            ///
            /// ```
            /// use ndarray_layout::*;
            ///
            #[doc = $setup]
            /// assert_eq!(array.first(), Some(&1));
            /// # Ok::<(), LayoutError>(())
            /// ```
            #[inline]
            #[must_use]
            pub fn first(&self) -> Option<&$lent T> {
                self.view().into_iter().next()
            }

            /// The item of the last index; `None` without one. ndarray's `last`. Not proved.
            ///
            /// # Panics
            ///
            /// As `view`.
            ///
            /// ```
            /// use ndarray_layout::*;
            ///
            #[doc = $setup]
            /// assert_eq!(array.last(), Some(&6));
            /// # Ok::<(), LayoutError>(())
            /// ```
            #[inline]
            #[must_use]
            pub fn last(&self) -> Option<&$lent T> {
                self.view().into_iter().next_back()
            }

            /// The transpose, which reads the same items. ndarray's `t`. Not proved.
            ///
            /// # Panics
            ///
            /// As `view`.
            ///
            /// ```
            /// use ndarray_layout::*;
            ///
            #[doc = $setup]
            /// assert_eq!(array.t().iter().copied().collect::<Vec<_>>(), [1, 4, 2, 5, 3, 6]);
            /// # Ok::<(), LayoutError>(())
            /// ```
            #[inline]
            #[must_use]
            pub fn t(&self) -> ArrayView<$lent, T, D> {
                self.view().reversed_axes()
            }

            /// An iterator over the rows along an axis, in row-major order of the other coordinates. ndarray's `lanes`.
            /// Not proved.
            ///
            /// # Errors
            ///
            /// `OutOfBounds` where there is no such axis.
            ///
            /// # Panics
            ///
            /// As `view`.
            ///
            /// ```
            /// use ndarray_layout::*;
            ///
            #[doc = $setup]
            /// let sums: Vec<i32> = array.lanes(Axis(0))?.map(|column| column.into_iter().sum()).collect();
            /// assert_eq!(sums, [5, 7, 9]);
            /// # Ok::<(), LayoutError>(())
            /// ```
            pub fn lanes(&self, axis: Axis) -> Result<IntoRows<$lent, T, D>, ShapeError> {
                self.view().into_lanes(axis)
            }

            /// An iterator over chunks of so many coordinates of an axis; the last may have fewer. ndarray's `axis_chunks_iter`.
            /// Not proved.
            ///
            /// # Errors
            ///
            /// `OutOfBounds` where there is no such axis; `Unsupported` for a size of 0.
            ///
            /// # Panics
            ///
            /// As `view`.
            ///
            /// ```
            /// use ndarray_layout::*;
            ///
            #[doc = $setup]
            /// let widths: Vec<usize> = array.axis_chunks_iter(Axis(1), 2)?.map(|chunk| chunk.ncols()).collect();
            /// assert_eq!(widths, [2, 1]);
            /// # Ok::<(), LayoutError>(())
            /// ```
            pub fn axis_chunks_iter(&self, axis: Axis, size: usize) -> Result<AxisChunksIter<$lent, T, D>, LayoutError> {
                check_chunks(self.shape(), axis, size)?;
                Ok(self.view().into_axis_chunks(axis, size)?)
            }

            /// An iterator over the items with their indices, in row-major order. ndarray's `indexed_iter`. Not proved.
            ///
            /// # Panics
            ///
            /// As `view`.
            ///
            /// ```
            /// use ndarray_layout::*;
            ///
            #[doc = $setup]
            /// assert!(array.indexed_iter().all(|((row, column), item)| *item as usize == 3 * row + column + 1));
            /// # Ok::<(), LayoutError>(())
            /// ```
            #[inline]
            #[must_use]
            pub fn indexed_iter(&self) -> IndexedIter<$lent, T, D> {
                self.view().into_indexed_iter().expect(OUT_OF_MEMORY)
            }
        }
    };
}

of_each!(reads);

impl<'a, T, D: Lengths> ArrayView<'a, T, D> {
    /// `as_slice`, by ndarray's name: `to_slice`. Not proved.
    ///
    /// ```
    /// use ndarray_layout::*;
    ///
    /// fn second_row(items: &[u8]) -> Option<&[u8]> {
    ///     ArrayView::from_shape((2, 3), items).ok()?.row(1).ok()?.to_slice()
    /// }
    ///
    /// assert_eq!(second_row(&[1, 2, 3, 4, 5, 6]), Some(&[4, 5, 6][..]));
    /// ```
    #[inline]
    #[must_use]
    pub fn to_slice(&self) -> Option<&'a [T]> {
        self.as_slice()
    }
}

impl<T, D: Dimension> OwnedArray<T, D> {
    /// The items as they are stored, where none that is no index's lies between them; else `None`. ndarray's
    /// `as_slice_memory_order`. Not proved; that of `view` is.
    ///
    /// # Panics
    ///
    /// As `view`.
    ///
    /// ```
    /// use ndarray_layout::*;
    ///
    /// let array = OwnedArray::from_shape_vec(Ix2(2, 3).f()?, vec![1, 2, 3, 4, 5, 6])?;
    /// assert_eq!((array.as_slice(), array.as_slice_memory_order()), (None, Some(&[1, 2, 3, 4, 5, 6][..])));
    /// # Ok::<(), LayoutError>(())
    /// ```
    #[inline]
    #[must_use]
    pub fn as_slice_memory_order(&self) -> Option<&[T]> {
        self.view().as_slice_memory_order()
    }
}
