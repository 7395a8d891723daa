//! The arrays along an axis, and the rows and columns of a matrix.

use super::check_axis;
use crate::convenience::OUT_OF_MEMORY;
use crate::memory::FallibleVec;
use crate::nd_base::{Axis, Ix1, Ix2, LayoutError, Lengths};
use crate::nd_dim::product;
use crate::nd_shape::{StrideShape, Strides};
use crate::ndarray_layout::RemoveAxis;
use crate::{ArrayView, ArrayViewMut, AxisIter, IntoRows, OwnedArray};
use alloc::vec::Vec;

/// The array of a shape of what a closure makes of rows, one for each index. Errors: out of memory.
fn mapped_rows<'a, T, U, D: Lengths, S: Lengths>(
    rows: IntoRows<'a, T, D>,
    dim: S,
    mut f: impl FnMut(ArrayView<'a, T, Ix1>) -> U,
) -> Result<OwnedArray<U, S>, LayoutError> {
    let (size, count) = (product(dim.slice()), rows.len());
    let mut items = Vec::fallible_with_capacity(size)?;
    items.extend(rows.map(|row| f(row.into_array())));
    // rows without items aren't among them
    items.extend((count..size).map(|_| f(ArrayView::from(&[][..]))));
    Ok(OwnedArray::from_shape_vec(StrideShape { dim, strides: Strides::C }, items)?)
}

/// The reads of one of the types of arrays along an axis, by `of_each!`.
macro_rules! axes {
    ($array:ident [$($of:tt)*] $lent:lifetime $again:ident $setup:expr) => {
        impl<$($of)* T, D: RemoveAxis> $array<$($of)* T, D> {
            /// An iterator over the arrays at the coordinates of an axis, without the axis. ndarray's `axis_iter`. Not proved.
            ///
            /// # Errors
            ///
            /// `OutOfBounds` where there is no such axis; then out of memory, never for at most 4 axes.
            ///
            /// ```
            /// use ndarray_layout::*;
            ///
            #[doc = $setup]
            /// let firsts: Vec<_> = array.axis_iter(Axis(1))?.filter_map(|column| column.first()).collect();
            /// assert_eq!(firsts, [&1, &2, &3]);
            /// # Ok::<(), LayoutError>(())
            /// ```
            pub fn axis_iter(&self, axis: Axis) -> Result<AxisIter<$lent, T, D>, LayoutError> {
                check_axis(self.shape(), axis)?;
                Ok(self.$again()?.into_axis_iter(axis)?)
            }

            /// An iterator over the arrays at the coordinates of the first axis. ndarray's `outer_iter`. Not proved.
            ///
            /// # Panics
            ///
            /// Where there is no axis, as only an `IxDyn` may have; where an allocation fails, never for at most 4 axes.
            ///
            /// ```
            /// use ndarray_layout::*;
            ///
            #[doc = $setup]
            /// let lasts: Vec<_> = array.outer_iter().filter_map(|row| row.last()).collect();
            /// assert_eq!(lasts, [&3, &6]);
            /// # Ok::<(), LayoutError>(())
            /// ```
            #[track_caller]
            #[must_use]
            pub fn outer_iter(&self) -> AxisIter<$lent, T, D> {
                assert!(self.ndim() > 0, "an array without axes has no outer arrays");
                self.axis_iter(Axis(0)).expect(OUT_OF_MEMORY)
            }

            /// What a closure makes of each row along an axis, as a new array without the axis, in row-major order. ndarray's
            /// `map_axis`. Not proved.
            ///
            /// # Errors
            ///
            /// `OutOfBounds` where there is no such axis; then out of memory.
            ///
            /// # Panics
            ///
            /// As `view`.
            ///
            /// ```
            /// use ndarray_layout::*;
            ///
            #[doc = $setup]
            /// let sums = array.map_axis(Axis(0), |column| column.into_iter().sum::<i32>())?;
            /// assert_eq!(sums.into_stored(), [5, 7, 9]);
            /// # Ok::<(), LayoutError>(())
            /// ```
            pub fn map_axis<U, F>(&self, axis: Axis, f: F) -> Result<OwnedArray<U, D::Smaller>, LayoutError>
            where
                F: FnMut(ArrayView<$lent, T, Ix1>) -> U,
            {
                mapped_rows(self.lanes(axis)?, self.dim().try_remove_axis(axis)?, f)
            }
        }

        impl<$($of)* T> $array<$($of)* T, Ix2> {
            /// The row of a number. ndarray's `row`. Not proved.
            ///
            /// # Errors
            ///
            /// `OutOfBounds` where there is no such row.
            ///
            /// ```
            /// use ndarray_layout::*;
            ///
            #[doc = $setup]
            /// assert_eq!(array.row(1)?.as_slice(), Some(&[4, 5, 6][..]));
            /// assert!(array.row(2).is_err());
            /// # Ok::<(), LayoutError>(())
            /// ```
            #[inline]
            pub fn row(&self, index: usize) -> Result<ArrayView<$lent, T, Ix1>, LayoutError> {
                self.view().index_axis(Axis(0), index)
            }

            /// The column of a number. ndarray's `column`. Not proved.
            ///
            /// # Errors
            ///
            /// `OutOfBounds` where there is no such column.
            ///
            /// ```
            /// use ndarray_layout::*;
            ///
            #[doc = $setup]
            /// assert_eq!(array.column(1)?.get(&1), Some(&5));
            /// assert!(array.column(3).is_err());
            /// # Ok::<(), LayoutError>(())
            /// ```
            #[inline]
            pub fn column(&self, index: usize) -> Result<ArrayView<$lent, T, Ix1>, LayoutError> {
                self.view().index_axis(Axis(1), index)
            }

            /// An iterator over the columns. ndarray's `columns`. Not proved.
            ///
            /// ```
            /// use ndarray_layout::*;
            ///
            #[doc = $setup]
            /// assert_eq!(array.columns().map(|column| column.into_iter().sum::<i32>()).max(), Some(9));
            /// # Ok::<(), LayoutError>(())
            /// ```
            #[must_use]
            pub fn columns(&self) -> IntoRows<$lent, T, Ix2> {
                self.t().into_rows()
            }
        }
    };
}

of_each!(axes);

impl<T, D: RemoveAxis> OwnedArray<T, D> {
    /// The items at one coordinate of an axis, without the axis, to be read. ndarray's `index_axis`. Not proved.
    ///
    /// # Errors
    ///
    /// Those of `Strided::index_axis`.
    ///
    /// ```
    /// use ndarray_layout::*;
    ///
    /// let array = OwnedArray::from_shape_vec(Ix2(2, 3), vec![1, 2, 3, 4, 5, 6])?;
    /// assert_eq!(array.index_axis(Axis(1), 2)?.last(), Some(&6));
    /// # Ok::<(), LayoutError>(())
    /// ```
    pub fn index_axis(&self, axis: Axis, index: usize) -> Result<ArrayView<'_, T, D::Smaller>, LayoutError> {
        Ok(ArrayView::new(self.strided().index_axis(axis, index)?, self.stored()))
    }
}
