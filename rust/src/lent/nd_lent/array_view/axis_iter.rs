// Made by `rust/erase` of `crates/nd_lent/src/array_view/axis_iter.rt`: edit that.
//! The arrays at the coordinates of an axis one after another, each lent for as long as the data is.

use crate::lent::nd_lent::array_view::ArrayView;
use crate::lent::nd_lent::array_view::arrays::Arrays;
use crate::lent::nd_lent::views::along_axis::AlongAxis;
use crate::lent::nd_lent::views::numbered::Numbered;
use crate::memory::prelude::Vec;
use crate::ndarray_layout::{Axis, RemoveAxis, ShapeError};

/// The arrays at the coordinates of an axis that are still to come, without the axis. ndarray's `AxisIter`.
pub type AxisIter<'a, T, D> = Arrays<'a, T, Numbered<AlongAxis<D>>>;

impl<'a, T, D: RemoveAxis> ArrayView<'a, T, D> {
    /// An iterator over the arrays at the coordinates of an axis, without the axis, from both ends, each lent for as long as the data
    /// is. It ends the array.
    ///
    /// Takes no memory. An array takes the time of `Strided::index_axis`.
    ///
    /// Axis 1 of `[2,2]` over 5 6 7 8: the columns 5 7 and 6 8. ndarray's `axis_iter`.
    ///
    /// # Errors
    ///
    /// `OutOfBounds` where there is no such axis.
    ///
    /// # Examples
    ///
    /// ```
    /// use ndarray_layout::{ArrayView, Axis, ErrorKind, Ix2, LayoutError};
    ///
    /// # fn main() -> Result<(), LayoutError> {
    /// let table = ArrayView::from_shape(Ix2(2, 2), &[5, 6, 7, 8])?;
    /// let columns = table.duplicate()?.into_axis_iter(Axis(1))?;
    /// assert_eq!(columns.map(|column| column.into_iter().sum::<i32>()).collect::<Vec<_>>(), [12, 14]);
    /// assert_eq!(table.into_axis_iter(Axis(2)).err().map(|error| error.kind()), Some(ErrorKind::OutOfBounds));
    /// # Ok(())
    /// # }
    /// ```
    ///
    /// <details><summary>Contract (proved)</summary>
    ///
    /// ```text
    /// ensures fault: result_err result ≡ invert_fault self.entry.view.shape axis.0
    /// ensures arrays: IfOk result (λ left. left ≡ arrays_along axis.0 self.entry)
    /// ```
    /// [How to read it](crate::contracts)
    /// </details>
    #[inline]
    pub fn into_axis_iter(self, axis: Axis) -> Result<AxisIter<'a, T, D>, ShapeError> {
        let ArrayView { reader, view } = self;
        let views = Numbered::along(view, axis)?;
        Ok(Arrays { reader, views })
    }
}
