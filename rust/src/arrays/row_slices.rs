//! The rows of an array as slices.

use crate::ArrayViewMut;
use crate::memory::{AllocError, FallibleVec};
use crate::nd_base::{Lengths, Order};
use alloc::vec::Vec;
use core::slice;

impl<'a, T, D: Lengths> ArrayViewMut<'a, T, D> {
    /// The rows as slices, each lent on its own, in row-major order, and the end of this value: where the items along the last axis
    /// lie side by side, each row of these; else each item as a row of its own. `into_rows` has rows of any stride, without a
    /// list of them. Not proved.
    ///
    /// # Errors
    ///
    /// Out of memory.
    ///
    /// ```
    /// use ndarray_layout::{ArrayViewMut, Ix2, LayoutError, s};
    ///
    /// # fn main() -> Result<(), LayoutError> {
    /// let mut items = [1, 2, 3, 4, 5, 6];
    /// let mut table = ArrayViewMut::from_shape(Ix2(2, 3), &mut items)?;
    /// let (tile, column) = table.multi_slice_mut((s![.., ..2], s![..;-1, 2]))?;
    /// assert_eq!(tile.into_row_slices()?, [[1, 2], [4, 5]]);
    /// assert_eq!(column.into_row_slices()?, [[6], [3]]);
    /// # Ok(())
    /// # }
    /// ```
    pub fn into_row_slices(self) -> Result<Vec<&'a mut [T]>, AllocError> {
        let first = self.strided().nth_row(Order::RowMajor, 0);
        let are_slices = first.is_none_or(|row| row.stretch(Order::RowMajor).is_some());
        let count = if are_slices { self.strided().rows(Order::RowMajor).len() } else { self.len() };
        let mut rows = Vec::fallible_with_capacity(count)?;
        match are_slices {
            true => rows.extend(self.into_rows().filter_map(|row| row.into_slice().ok())),
            false => rows.extend(self.into_items().map(slice::from_mut)),
        }
        Ok(rows)
    }
}
