//! What may be written of an array of any number of axes.

use super::{MultiSliceArg, check_chunks};
use crate::convenience::OUT_OF_MEMORY;
use crate::nd_base::{Axis, LayoutError, Lengths, ShapeError};
use crate::nd_dim::Dimension;
use crate::nd_lent::{IndexedIterMut, IterMut, LanesMut};
use crate::{ArrayView, ArrayViewMut, AxisChunksIterMut, IntoRows, OwnedArray};

/// The writes of one of the types of arrays: the head of the impl, the call that lends the array, and what makes `array` of
/// `items` in examples, which is 1 2 3 over 4 5 6, and `items` of it.
macro_rules! writes {
    ([$($head:tt)*] $view:ident $setup:expr, $end:expr) => {
        $($head)* {
            /// The array lent again, to be written, for as long as this one isn't used. ndarray's `view_mut` and `reborrow`.
            /// Not proved.
            ///
            /// Takes no memory, or for an `IxDyn` of more than 4 axes that of the shape and the strides.
            ///
            /// # Panics
            ///
            /// Where an allocation fails; never where the type fixes the count of axes or there are at most 4.
            ///
            /// ```
            /// use ndarray_layout::*;
            ///
            #[doc = $setup]
            /// for column in 0..3 {
            ///     array.view_mut().index_axis(Axis(1), column)?.fill(column as i32);
            /// }
            #[doc = $end]
            /// assert_eq!(items, [0, 1, 2, 0, 1, 2]);
            /// # Ok::<(), LayoutError>(())
            /// ```
            #[inline]
            #[must_use]
            pub fn view_mut(&mut self) -> ArrayViewMut<'_, T, D> {
                self.$view().expect(OUT_OF_MEMORY)
            }

            /// The items in row-major order, to be written, where they lie one after another so; else `None`. ndarray's
            /// `as_slice_mut`. Not proved.
            ///
            /// # Panics
            ///
            /// As `view_mut`.
            ///
            /// ```
            /// use ndarray_layout::*;
            ///
            #[doc = $setup]
            /// array.as_slice_mut().unwrap().reverse();
            #[doc = $end]
            /// assert_eq!(items, [6, 5, 4, 3, 2, 1]);
            /// # Ok::<(), LayoutError>(())
            /// ```
            #[inline]
            #[must_use]
            pub fn as_slice_mut(&mut self) -> Option<&mut [T]> {
                self.view_mut().into_slice().ok()
            }

            /// The items as they are stored, to be written, where none that is no index's lies between them; else `None`.
            /// ndarray's `as_slice_memory_order_mut`. Not proved.
            ///
            /// # Panics
            ///
            /// As `view_mut`.
            ///
            /// ```
            /// use ndarray_layout::*;
            ///
            #[doc = $setup]
            /// array.view_mut().reversed_axes().as_slice_memory_order_mut().unwrap()[0] = 10;
            #[doc = $end]
            /// assert_eq!(items, [10, 2, 3, 4, 5, 6]);
            /// # Ok::<(), LayoutError>(())
            /// ```
            #[inline]
            #[must_use]
            pub fn as_slice_memory_order_mut(&mut self) -> Option<&mut [T]>
            where
                D: Dimension,
            {
                self.view_mut().into_slice_memory_order().ok()
            }

            /// The item of the first index, to be written; `None` without one. ndarray's `first_mut`. Not proved.
            ///
            /// # Panics
            ///
            /// As `view_mut`.
            ///
            /// ```
            /// use ndarray_layout::*;
            ///
            #[doc = $setup]
            /// *array.first_mut().unwrap() = 10;
            #[doc = $end]
            /// assert_eq!(items, [10, 2, 3, 4, 5, 6]);
            /// # Ok::<(), LayoutError>(())
            /// ```
            #[inline]
            #[must_use]
            pub fn first_mut(&mut self) -> Option<&mut T> {
                self.iter_mut().next()
            }

            /// The item of the last index, to be written; `None` without one. ndarray's `last_mut`. Not proved.
            ///
            /// # Panics
            ///
            /// As `view_mut`.
            ///
            /// ```
            /// use ndarray_layout::*;
            ///
            #[doc = $setup]
            /// *array.last_mut().unwrap() = 60;
            #[doc = $end]
            /// assert_eq!(items, [1, 2, 3, 4, 5, 60]);
            /// # Ok::<(), LayoutError>(())
            /// ```
            #[inline]
            #[must_use]
            pub fn last_mut(&mut self) -> Option<&mut T> {
                self.iter_mut().next_back()
            }

            /// An iterator over the items in row-major order, each lent to be written. ndarray's `iter_mut`. Not proved.
            ///
            /// # Panics
            ///
            /// As `view_mut`.
            ///
            /// ```
            /// use ndarray_layout::*;
            ///
            #[doc = $setup]
            /// array.iter_mut().rev().zip(0..).for_each(|(item, number)| *item = number);
            #[doc = $end]
            /// assert_eq!(items, [5, 4, 3, 2, 1, 0]);
            /// # Ok::<(), LayoutError>(())
            /// ```
            #[inline]
            #[must_use]
            pub fn iter_mut(&mut self) -> IterMut<'_, T, D> {
                self.view_mut().into_items()
            }

            /// An iterator over the items with their indices, in row-major order, each lent to be written. ndarray's
            /// `indexed_iter_mut`. Not proved.
            ///
            /// # Panics
            ///
            /// As `iter_mut`.
            ///
            /// ```
            /// use ndarray_layout::*;
            ///
            #[doc = $setup]
            /// array.indexed_iter_mut().for_each(|((row, column), item)| *item = (10 * row + column) as i32);
            #[doc = $end]
            /// assert_eq!(items, [0, 1, 2, 10, 11, 12]);
            /// # Ok::<(), LayoutError>(())
            /// ```
            #[inline]
            #[must_use]
            pub fn indexed_iter_mut(&mut self) -> IndexedIterMut<'_, T, D> {
                self.view_mut().into_indexed_items().expect(OUT_OF_MEMORY)
            }

            /// An iterator over the rows along the last axis, in row-major order, to be read. ndarray's `rows`. Not proved.
            ///
            /// # Panics
            ///
            /// As `view`.
            ///
            /// ```
            /// use ndarray_layout::*;
            ///
            #[doc = $setup]
            /// assert_eq!(array.rows().filter_map(|row| row.as_slice()).last(), Some(&[4, 5, 6][..]));
            #[doc = $end]
            /// assert_eq!(items, [1, 2, 3, 4, 5, 6]);
            /// # Ok::<(), LayoutError>(())
            /// ```
            #[must_use]
            pub fn rows(&self) -> IntoRows<'_, T, D> {
                self.view().into_rows()
            }

            /// An iterator over the rows along the last axis, in row-major order, from both ends, each lent to be written, whatever
            /// the strides are: several may be used at once, and in threads. It is `into_rows` of what `view_mut` lends, which is proved.
            /// ndarray's `rows_mut`. Not proved.
            ///
            /// # Panics
            ///
            /// As `view_mut`.
            ///
            /// ```
            /// use ndarray_layout::*;
            ///
            #[doc = $setup]
            /// for mut row in array.rows_mut() {
            ///     row.swap(&0, &2);
            /// }
            #[doc = $end]
            /// assert_eq!(items, [3, 2, 1, 6, 5, 4]);
            /// # Ok::<(), LayoutError>(())
            /// ```
            pub fn rows_mut(&mut self) -> LanesMut<'_, T, D> {
                self.view_mut().into_rows()
            }

            /// An iterator over the rows along an axis, in row-major order of the other coordinates, as `rows_mut`. ndarray's
            /// `lanes_mut`. Not proved.
            ///
            /// # Errors
            ///
            /// `OutOfBounds` where there is no such axis.
            ///
            /// # Panics
            ///
            /// As `view_mut`.
            ///
            /// ```
            /// use ndarray_layout::*;
            ///
            #[doc = $setup]
            /// array.lanes_mut(Axis(0))?.zip(7..).for_each(|(mut column, number)| column.fill(number));
            #[doc = $end]
            /// assert_eq!(items, [7, 8, 9, 7, 8, 9]);
            /// # Ok::<(), LayoutError>(())
            /// ```
            pub fn lanes_mut(&mut self, axis: Axis) -> Result<LanesMut<'_, T, D>, ShapeError> {
                self.view_mut().into_lanes(axis)
            }

            /// An iterator over chunks of so many coordinates of an axis, from both ends, each lent to be written, whatever the
            /// strides are; the last may have fewer. Several may be used at once, and in threads. ndarray's `axis_chunks_iter_mut`.
            /// Not proved.
            ///
            /// # Errors
            ///
            /// `OutOfBounds` where there is no such axis; `Unsupported` for a size of 0; then out of memory, never for at most 4
            /// axes.
            ///
            /// ```
            /// use ndarray_layout::*;
            ///
            #[doc = $setup]
            /// for (mut columns, number) in array.axis_chunks_iter_mut(Axis(1), 2)?.zip(7..) {
            ///     columns.fill(number);
            /// }
            #[doc = $end]
            /// assert_eq!(items, [7, 7, 8, 7, 7, 8]);
            /// # Ok::<(), LayoutError>(())
            /// ```
            pub fn axis_chunks_iter_mut(
                &mut self,
                axis: Axis,
                size: usize,
            ) -> Result<AxisChunksIterMut<'_, T, D>, LayoutError> {
                check_chunks(self.shape(), axis, size)?;
                Ok(self.$view()?.into_chunk_parts(axis, size)?)
            }

            /// The parts that slices pick, all lent at once: for a tuple of slices a tuple of parts, for an array or a list of slices of
            /// one type an array or a list. Afterwards this array may be used again. ndarray's `multi_slice_mut`, which panics. Not proved.
            ///
            /// # Errors
            ///
            /// That of `Strided::slice` for the first slice that doesn't fit; then `Unsupported` where two slices share an index, which
            /// `Strided::first_intersection` names; then out of memory, which comes before both where this array is an `IxDyn`
            /// of more than four axes. The items are unchanged.
            ///
            /// Takes memory for a list of parts, of which an array is made too, none for a tuple, and time for each part and for the
            /// comparisons of `first_intersection_sorted`, which takes memory for more than four slices.
            ///
            /// ```
            /// use ndarray_layout::*;
            ///
            #[doc = $setup]
            /// let (mut row, mut tile) = array.multi_slice_mut((s![0, ..], s![1.., ..2]))?;
            /// row.fill(8);
            /// tile[(0, 1)] = 9;
            /// assert!(array.multi_slice_mut(vec![s![0, ..], s![..1, 0]]).is_err());
            #[doc = $end]
            /// assert_eq!(items, [8, 8, 8, 4, 9, 6]);
            /// # Ok::<(), LayoutError>(())
            /// ```
            ///
            /// One element is no slice of two axes, so this doesn't compile:
            ///
            /// ```compile_fail,E0271
            /// use ndarray_layout::{ArrayViewMut, Ix2, LayoutError, s};
            ///
            /// fn clear(table: &mut ArrayViewMut<'_, u8, Ix2>) -> Result<(), LayoutError> {
            ///     table.multi_slice_mut((s![0], s![1, ..]))?.0.fill(0);
            ///     Ok(())
            /// }
            /// ```
            pub fn multi_slice_mut<M: MultiSliceArg<D>>(&mut self, slices: M) -> Result<M::Parts<'_, T>, LayoutError> {
                slices.lend(self.$view()?)
            }
        }
    };
}

writes!([impl<T, D: Lengths> ArrayViewMut<'_, T, D>] reborrow
    "let mut items = [1, 2, 3, 4, 5, 6];\nlet mut array = ArrayViewMut::from_shape(Ix2(2, 3), &mut items)?;", "");
writes!([impl<T, D: Lengths> OwnedArray<T, D>] try_view_mut
    "let mut array = OwnedArray::from_shape_vec(Ix2(2, 3), vec![1, 2, 3, 4, 5, 6])?;",
    "let items = array.into_stored();");

impl<T, D: Lengths> OwnedArray<T, D> {
    /// Calls a closure at each item and at that of another array of the same shape, in row-major order. ndarray's `zip_mut_with`, which
    /// broadcasts the other one: `ArrayView::broadcast` comes first. Not proved.
    ///
    /// Takes the memory of `view_mut`. Rows whose items follow one another in both are a loop over two slices.
    ///
    /// # Errors
    ///
    /// `IncompatibleShape` where the shapes differ; the closure isn't called.
    ///
    /// # Panics
    ///
    /// As `view_mut`.
    ///
    /// ```
    /// use ndarray_layout::*;
    ///
    /// let others = [1.5, 2.5, 3.5];
    /// let others = ArrayView::from_shape(Ix1(3), &others)?.broadcast(&Ix2(2, 3))?;
    /// let mut array = OwnedArray::from_shape_vec(Ix2(2, 3), vec![1, 2, 3, 4, 5, 6])?;
    /// array.zip_mut_with(&others, |item, other| *item += *other as i32)?;
    /// let items = array.into_stored();
    /// assert_eq!(items, [2, 4, 6, 5, 7, 9]);
    /// # Ok::<(), LayoutError>(())
    /// ```
    pub fn zip_mut_with<U, F: FnMut(&mut T, &U)>(
        &mut self,
        other: &ArrayView<'_, U, D>,
        f: F,
    ) -> Result<(), ShapeError> {
        self.view_mut().zip_mut_with(other, f)
    }

    /// Calls a function at each item and at those at the same index of two other arrays of the same shape, in row-major order.
    ///
    /// In the time of `zip_mut_with`. ndarray's `Zip::from(..).and(..).and(..).for_each`:
    ///
    /// ```
    /// use ndarray_layout::{ArrayView, Ix2, LayoutError, OwnedArray};
    ///
    /// let mut array = OwnedArray::from_shape_vec(Ix2(2, 2), vec![1, 2, 3, 4])?;
    /// let (others, thirds) = ([5, 6, 7, 8], [1_u8, 0, 1, 0]);
    /// let others = ArrayView::from_shape(Ix2(2, 2), &others)?;
    /// let thirds = ArrayView::from_shape(Ix2(2, 2), &thirds)?;
    /// array.zip_mut_with_two(&others, &thirds, |item, other, third| *item += other * i32::from(*third))?;
    /// assert_eq!(array.into_stored(), [6, 2, 10, 4]);
    /// # Ok::<(), LayoutError>(())
    /// ```
    ///
    /// # Errors
    ///
    /// Those of `ArrayViewMut::zip_mut_with_two`; the items are unchanged. Panics where the copy of the layout fails. Not proved.
    pub fn zip_mut_with_two<U, V, F: FnMut(&mut T, &U, &V)>(
        &mut self,
        other: &ArrayView<'_, U, D>,
        third: &ArrayView<'_, V, D>,
        f: F,
    ) -> Result<(), ShapeError> {
        self.view_mut().zip_mut_with_two(other, third, f)
    }
}

impl<T: Clone, D: Lengths> OwnedArray<T, D> {
    /// Writes an item at each index; spare items are unchanged. ndarray's `fill`. Not proved; that of `view_mut` is.
    ///
    /// # Panics
    ///
    /// As `view_mut`.
    ///
    /// ```
    /// use ndarray_layout::*;
    ///
    /// let mut array = OwnedArray::from_shape_vec(Ix1(2), vec![7, 8, 9])?;
    /// array.fill(5);
    /// assert_eq!(array.into_stored(), [5, 5, 9]);
    /// # Ok::<(), LayoutError>(())
    /// ```
    pub fn fill(&mut self, item: T) {
        self.view_mut().fill(item);
    }

    /// Writes at each index a copy of the item that another array of the same shape has there. ndarray's `assign`. Not proved;
    /// that of `view_mut` is.
    ///
    /// # Errors
    ///
    /// `IncompatibleShape` where the shapes differ; the items are unchanged.
    ///
    /// # Panics
    ///
    /// As `view_mut`.
    ///
    /// ```
    /// use ndarray_layout::*;
    ///
    /// let mut array = OwnedArray::from_shape_vec(Ix1(2), vec![7, 8, 9])?;
    /// array.assign(&ArrayView::from_shape(Ix1(2), &[5, 6])?)?;
    /// assert_eq!(array.into_stored(), [5, 6, 9]);
    /// # Ok::<(), LayoutError>(())
    /// ```
    pub fn assign(&mut self, other: &ArrayView<'_, T, D>) -> Result<(), ShapeError> {
        self.view_mut().assign(other)
    }
}
