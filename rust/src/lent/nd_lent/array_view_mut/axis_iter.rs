// Made by `rust/erase` of `crates/nd_lent/src/array_view_mut/axis_iter.rt`: edit that.
//! The parts at the coordinates of an axis one after another, each a part of its own.

use crate::lent::nd_lent::array_view_mut::ArrayViewMut;
use crate::lent::nd_lent::array_view_mut::parts::Parts;
use crate::lent::nd_lent::views::along_axis::AlongAxis;
use crate::lent::nd_lent::views::numbered::Numbered;
use crate::memory::prelude::Vec;
use crate::ndarray_layout::{Axis, RemoveAxis, ShapeError};

/// The parts at the coordinates of an axis that are still to come, without the axis. ndarray's `AxisIterMut`.
pub type AxisIterMut<'a, T, D> = Parts<'a, T, Numbered<AlongAxis<D>>>;

impl<'a, T: Sized, D: RemoveAxis> ArrayViewMut<'a, T, D> {
    /// An iterator over the parts at the coordinates of an axis, without the axis, from both ends, each a part of its own: several
    /// may be used at once, and in threads, whatever the strides are. It ends this part.
    ///
    /// Takes no memory. A part takes the time of `Strided::index_axis`.
    ///
    /// Axis 1 of `[2,2]` over 5 6 7 8: the columns 5 7 and 6 8. ndarray's `axis_iter_mut`.
    ///
    /// # Errors
    ///
    /// `OutOfBounds` where there is no such axis. The part is gone then.
    ///
    /// # Examples
    ///
    /// ```
    /// use ndarray_layout::{ArrayViewMut, Axis, Ix2, LayoutError};
    ///
    /// # fn main() -> Result<(), LayoutError> {
    /// let mut items = [5, 6, 7, 8];
    /// let part = ArrayViewMut::from_shape(Ix2(2, 2), &mut items)?;
    /// let columns: Vec<_> = part.into_axis_parts(Axis(1))?.collect();
    /// let [mut first, mut second] = columns.try_into().expect("two columns");
    /// second[1] = first[0];
    /// first.fill(0);
    /// assert_eq!(items, [0, 6, 0, 5]);
    /// # Ok(())
    /// # }
    /// ```
    ///
    /// <details><summary>Contract (proved)</summary>
    ///
    /// ```text
    /// ensures fault: result_err result ≡ invert_fault (array_of self.entry).view.shape axis.0
    /// ensures parts: IfOk result (λ left. left.arrays ≡ arrays_along axis.0 (array_of self.entry))
    /// ensures keeps_access: IfOk result (λ left. left.access ≡ access_of self.entry)
    /// ```
    /// [How to read it](crate::contracts)
    /// </details>
    #[inline]
    pub fn into_axis_parts(self, axis: Axis) -> Result<AxisIterMut<'a, T, D>, ShapeError> {
        let ArrayViewMut { cells, view } = self;
        let views = Numbered::along(view, axis)?;
        Ok(Parts { cells, views })
    }
}
