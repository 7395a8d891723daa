//! The arrays along an axis, and the rows and columns of a matrix, to be written.

use super::check_axis;
use crate::nd_base::{Axis, ErrorKind, Ix1, Ix2, LayoutError, from_kind};
use crate::ndarray_layout::RemoveAxis;
use crate::{ArrayViewMut, AxisIterMut, LanesMut, OwnedArray};

/// The writes of one of the types of arrays along an axis: as `writes!`, with a second head, for matrices.
macro_rules! axes_mut {
    ([$($axis_head:tt)*] [$($matrix_head:tt)*] $view:ident $setup:expr, $end:expr) => {
        $($axis_head)* {
            /// The items at one coordinate of an axis, without the axis, lent to be written for as long as this array isn't used.
            /// ndarray's `index_axis_mut`. Not proved.
            ///
            /// # Errors
            ///
            /// `OutOfBounds` where there is no such axis or coordinate; then out of memory, never for at most 4 axes.
            ///
            /// ```
            /// use ndarray_layout::*;
            ///
            #[doc = $setup]
            /// array.index_axis_mut(Axis(1), 2)?.fill(7);
            #[doc = $end]
            /// assert_eq!(items, [1, 2, 7, 4, 5, 7]);
            /// # Ok::<(), LayoutError>(())
            /// ```
            pub fn index_axis_mut(
                &mut self,
                axis: Axis,
                index: usize,
            ) -> Result<ArrayViewMut<'_, T, D::Smaller>, LayoutError> {
                // (before the array is lent, for which memory may run out)
                self.shape().get(axis.index()).filter(|len| index < **len).ok_or(from_kind(ErrorKind::OutOfBounds))?;
                self.$view()?.index_axis(axis, index)
            }

            /// An iterator over the arrays at the coordinates of an axis, without the axis, from both ends, each lent to be written,
            /// whatever the strides are: several may be used at once, and in threads. ndarray's `axis_iter_mut`. Not proved.
            ///
            /// # Errors
            ///
            /// `OutOfBounds` where there is no such axis; then out of memory, never for at most 4 axes.
            ///
            /// ```
            /// use ndarray_layout::*;
            ///
            #[doc = $setup]
            /// for (mut column, number) in array.axis_iter_mut(Axis(1))?.rev().zip(7..) {
            ///     column.fill(number);
            /// }
            #[doc = $end]
            /// assert_eq!(items, [9, 8, 7, 9, 8, 7]);
            /// # Ok::<(), LayoutError>(())
            /// ```
            pub fn axis_iter_mut(&mut self, axis: Axis) -> Result<AxisIterMut<'_, T, D>, LayoutError> {
                check_axis(self.shape(), axis)?;
                Ok(self.$view()?.into_axis_parts(axis)?)
            }

            /// An iterator over the arrays at the coordinates of the first axis, each lent to be written: `axis_iter_mut`. ndarray's
            /// `outer_iter_mut`. Not proved.
            ///
            /// # Errors
            ///
            /// Out of memory, never for at most 4 axes.
            ///
            /// # Panics
            ///
            /// Where there is no axis, as only an `IxDyn` may have.
            ///
            /// ```
            /// use ndarray_layout::*;
            ///
            #[doc = $setup]
            /// for (mut row, number) in array.outer_iter_mut()?.zip(1..) {
            ///     row.fill(number);
            /// }
            #[doc = $end]
            /// assert_eq!(items, [1, 1, 1, 2, 2, 2]);
            /// # Ok::<(), LayoutError>(())
            /// ```
            #[track_caller]
            pub fn outer_iter_mut(&mut self) -> Result<AxisIterMut<'_, T, D>, LayoutError> {
                assert!(self.ndim() > 0, "an array without axes has no outer arrays");
                self.axis_iter_mut(Axis(0))
            }
        }

        $($matrix_head)* {
            /// The row of a number, lent to be written for as long as this array isn't used. ndarray's `row_mut`. Not proved.
            ///
            /// # Errors
            ///
            /// `OutOfBounds` where there is no such row.
            ///
            /// ```
            /// use ndarray_layout::*;
            ///
            #[doc = $setup]
            /// array.row_mut(1)?.iter_mut().for_each(|item| *item *= 2);
            /// assert!(array.row_mut(2).is_err());
            #[doc = $end]
            /// assert_eq!(items, [1, 2, 3, 8, 10, 12]);
            /// # Ok::<(), LayoutError>(())
            /// ```
            #[inline]
            pub fn row_mut(&mut self, index: usize) -> Result<ArrayViewMut<'_, T, Ix1>, LayoutError> {
                self.index_axis_mut(Axis(0), index)
            }

            /// The column of a number, lent to be written for as long as this array isn't used. ndarray's `column_mut`.
            /// Not proved.
            ///
            /// # Errors
            ///
            /// `OutOfBounds` where there is no such column.
            ///
            /// ```
            /// use ndarray_layout::*;
            ///
            #[doc = $setup]
            /// array.column_mut(1)?.iter_mut().for_each(|item| *item = 0);
            /// assert!(array.column_mut(3).is_err());
            #[doc = $end]
            /// assert_eq!(items, [1, 0, 3, 4, 0, 6]);
            /// # Ok::<(), LayoutError>(())
            /// ```
            #[inline]
            pub fn column_mut(&mut self, index: usize) -> Result<ArrayViewMut<'_, T, Ix1>, LayoutError> {
                self.index_axis_mut(Axis(1), index)
            }

            /// An iterator over the columns, each lent to be written. ndarray's `columns_mut`. Not proved.
            ///
            /// ```
            /// use ndarray_layout::*;
            ///
            #[doc = $setup]
            /// array.columns_mut().zip(7..).for_each(|(mut column, number)| column.fill(number));
            #[doc = $end]
            /// assert_eq!(items, [7, 8, 9, 7, 8, 9]);
            /// # Ok::<(), LayoutError>(())
            /// ```
            pub fn columns_mut(&mut self) -> LanesMut<'_, T, Ix2> {
                self.view_mut().reversed_axes().into_rows()
            }
        }
    };
}

axes_mut!([impl<T, D: RemoveAxis> ArrayViewMut<'_, T, D>] [impl<T> ArrayViewMut<'_, T, Ix2>] reborrow
    "let mut items = [1, 2, 3, 4, 5, 6];\nlet mut array = ArrayViewMut::from_shape(Ix2(2, 3), &mut items)?;", "");
axes_mut!([impl<T, D: RemoveAxis> OwnedArray<T, D>] [impl<T> OwnedArray<T, Ix2>] try_view_mut
    "let mut array = OwnedArray::from_shape_vec(Ix2(2, 3), vec![1, 2, 3, 4, 5, 6])?;",
    "let items = array.into_stored();");
