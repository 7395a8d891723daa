// Made by `rust/erase` of `crates/nd_lent/src/array_view_mut/memory_order.rt`: edit that.
//! The items of a part as they are stored, whatever the order of its axes, to be read or written.

use crate::lent::nd_lent::array_view_mut::ArrayViewMut;
use crate::lent::nd_lent::memory_range::memory_range;
use crate::ndarray_layout::Dimension;

impl<'a, T: Sized, D: Dimension> ArrayViewMut<'a, T, D> {
    /// The items as they are stored, from the lowest place on, to be read, where their places are consecutive numbers; else `None`.
    /// Without an index it is an empty slice.
    ///
    /// Takes no memory, and time in proportion to the square of the count of axes at most.
    ///
    /// `[2]`, `[-1]` from 1 over 7 8 9: 7 8. ndarray's `as_slice_memory_order`.
    ///
    /// # Examples
    ///
    /// ```
    /// use ndarray_layout::{ArrayViewMut, Axis, Ix2, LayoutError};
    ///
    /// # fn main() -> Result<(), LayoutError> {
    /// let mut items = [7, 8, 9, 10];
    /// let part = ArrayViewMut::from_shape(Ix2(2, 2), &mut items)?.reversed_axes();
    /// assert_eq!(part.as_slice_memory_order(), Some(&[7, 8, 9, 10][..]));
    /// let (row, _) = part.split_at(Axis(0), 1)?;
    /// assert_eq!(row.as_slice_memory_order(), None);
    /// # Ok(())
    /// # }
    /// ```
    ///
    /// <details><summary>Contract (proved)</summary>
    ///
    /// ```text
    /// ensures found: IsSome result ↔ FillsInterval (array_of self.now).view.shape (array_of self.now).view.strides
    /// ensures items: IfSome result (λ items. items.now ≡ items_in_memory_order (array_of self.now))
    /// ```
    /// [How to read it](crate::contracts)
    /// </details>
    #[inline]
    #[must_use]
    pub fn as_slice_memory_order(&self) -> Option<&[T]> {
        let (start, len) = memory_range(&self.view)?;
        Some(self.cells.shared().slice(start, len))
    }

    /// The items as they are stored, from the lowest place on, for as long as the whole is lent, where their places are consecutive
    /// numbers; else the part. Without an index it is an empty slice. That the items keep what is written is tested, and in no clause.
    ///
    /// Takes no memory, and time in proportion to the square of the count of axes at most.
    ///
    /// `[2]`, `[-1]` from 1 over 7 8 9: 7 8. ndarray's `into_slice_memory_order`.
    ///
    /// # Examples
    ///
    /// ```
    /// use ndarray_layout::{ArrayViewMut, Axis, Ix2, LayoutError};
    ///
    /// # fn main() -> Result<(), LayoutError> {
    /// let mut items = [7, 8, 9, 10];
    /// let part = ArrayViewMut::from_shape(Ix2(2, 2), &mut items)?.reversed_axes();
    /// let (row, _) = part.split_at(Axis(0), 1)?;
    /// assert_eq!(row.into_slice_memory_order().map_err(|part| part.get(&(0, 1)).copied()), Err(Some(9)));
    /// let mut part = ArrayViewMut::from_shape(Ix2(2, 2), &mut items)?.reversed_axes();
    /// part.invert_axis(Axis(1))?;
    /// assert_eq!(part.into_slice_memory_order().ok(), Some(&mut [7, 8, 9, 10][..]));
    /// # Ok(())
    /// # }
    /// ```
    ///
    /// <details><summary>Contract (proved)</summary>
    ///
    /// ```text
    /// ensures found: IsOk result ↔ FillsInterval (array_of self.entry).view.shape (array_of self.entry).view.strides
    /// ensures items: IfOk result (λ items. items.now ≡ items_in_memory_order (array_of self.entry))
    /// ensures kept: IfErr result (λ part. array_of part ≡ array_of self.entry)
    /// ensures keeps_access: IfErr result (λ part. access_of part ≡ access_of self.entry)
    /// ```
    /// [How to read it](crate::contracts)
    /// </details>
    #[inline]
    pub fn into_slice_memory_order(self) -> Result<&'a mut [T], Self> {
        let ArrayViewMut { cells, view } = self;
        match memory_range(&view) {
            Some((start, len)) => {
                let mut cells = cells;
                Ok(cells.take_slice(start, len))
            }
            None => Err(ArrayViewMut { cells, view }),
        }
    }
}
