//! Slices of arrays whose types say which shapes they are for and which they leave, as `Strided::sliced`.

use crate::nd_base::{LayoutError, Lengths};
use crate::nd_slice::{Fit, SliceArg};
use crate::{ArrayView, ArrayViewMut, OwnedArray};

impl<'a, T, D: Lengths> ArrayView<'a, T, D> {
    /// The items that a slice argument leaves, as an array of the type that the argument says: `Strided::sliced`, with its
    /// errors. Not proved.
    ///
    /// `1, ..;-1` of `[2,3]` over 0, 1, .. 5: 5 4 3. ndarray's `slice`, which panics.
    ///
    /// ```
    /// use ndarray_layout::{ArrayView, Ix1, Ix2, LayoutError, s};
    ///
    /// # fn main() -> Result<(), LayoutError> {
    /// let table = ArrayView::from_shape(Ix2(2, 3), &[0, 1, 2, 3, 4, 5])?;
    /// let row: ArrayView<'_, _, Ix1> = table.slice(s![1, ..;-1])?;
    /// assert_eq!((row[0], row[1], row[2]), (5, 4, 3));
    /// # Ok(())
    /// # }
    /// ```
    ///
    /// One element is no slice of two axes, so this doesn't compile:
    ///
    /// ```compile_fail,E0271
    /// use ndarray_layout::{ArrayView, Ix2, LayoutError, s};
    ///
    /// fn len(table: &ArrayView<'_, u8, Ix2>) -> Result<usize, LayoutError> {
    ///     Ok(table.slice(s![1])?.len())
    /// }
    /// ```
    #[inline]
    pub fn slice<I: SliceArg<D>>(&self, slices: I) -> Result<ArrayView<'a, T, I::OutDim>, LayoutError> {
        self.slice_with(&slices, Fit::Strict)
    }
}

impl<'a, T, D: Lengths> ArrayViewMut<'a, T, D> {
    /// The items that a slice argument leaves, to be read for as long as this array isn't written: `Strided::sliced`, with its
    /// errors, but out of memory first for an `IxDyn` of more than 4 axes. Not proved.
    ///
    /// ndarray's `slice`, which panics.
    ///
    /// ```
    /// use ndarray_layout::{ArrayViewMut, Ix2, LayoutError, s};
    ///
    /// # fn main() -> Result<(), LayoutError> {
    /// let mut items = [0, 1, 2, 3, 4, 5];
    /// let table = ArrayViewMut::from_shape(Ix2(2, 3), &mut items)?;
    /// assert_eq!(table.slice(s![.., 1..])?[(1, 0)], 4);
    /// # Ok(())
    /// # }
    /// ```
    #[inline]
    pub fn slice<I: SliceArg<D>>(&self, slices: I) -> Result<ArrayView<'_, T, I::OutDim>, LayoutError> {
        self.try_view()?.slice_with(&slices, Fit::Strict)
    }

    /// The items that a slice argument leaves, to be written, after which this array may be used again: `Strided::sliced`, with
    /// its errors. Not proved.
    ///
    /// ndarray's `slice_mut`, which panics.
    ///
    /// ```
    /// use ndarray_layout::{ArrayViewMut, Ix2, LayoutError, s};
    ///
    /// # fn main() -> Result<(), LayoutError> {
    /// let mut items = [0, 1, 2, 3, 4, 5];
    /// let mut table = ArrayViewMut::from_shape(Ix2(2, 3), &mut items)?;
    /// table.slice_mut(s![.., 1..;2])?.fill(9);
    /// table.slice_mut(s![1, ..])?.fill(7);
    /// assert_eq!(items, [0, 9, 2, 7, 7, 7]);
    /// # Ok(())
    /// # }
    /// ```
    ///
    /// Three elements are no slice of two axes, so this doesn't compile:
    ///
    /// ```compile_fail,E0271
    /// use ndarray_layout::{ArrayViewMut, Ix2, LayoutError, s};
    ///
    /// fn clear(table: &mut ArrayViewMut<'_, u8, Ix2>) -> Result<(), LayoutError> {
    ///     table.slice_mut(s![.., .., 0])?.fill(0);
    ///     Ok(())
    /// }
    /// ```
    #[inline]
    pub fn slice_mut<I: SliceArg<D>>(&mut self, slices: I) -> Result<ArrayViewMut<'_, T, I::OutDim>, LayoutError> {
        self.slice_mut_with(&slices, Fit::Strict)
    }

    /// The items that a slice argument leaves, to be written for as long as those of this array, which it ends:
    /// `Strided::sliced`, with its errors. Not proved.
    ///
    /// ndarray's `slice_move`, which panics.
    ///
    /// ```
    /// use ndarray_layout::{ArrayViewMut, Ix1, Ix2, LayoutError, s};
    ///
    /// fn last_row<'a>(table: ArrayViewMut<'a, u8, Ix2>) -> Result<ArrayViewMut<'a, u8, Ix1>, LayoutError> {
    ///     table.slice_move(s![-1, ..])
    /// }
    ///
    /// # fn main() -> Result<(), LayoutError> {
    /// let mut items = [0, 1, 2, 3];
    /// last_row(ArrayViewMut::from_shape(Ix2(2, 2), &mut items)?)?.fill(9);
    /// assert_eq!(items, [0, 1, 9, 9]);
    /// # Ok(())
    /// # }
    /// ```
    #[inline]
    pub fn slice_move<I: SliceArg<D>>(self, slices: I) -> Result<ArrayViewMut<'a, T, I::OutDim>, LayoutError> {
        self.slice_move_with(&slices, Fit::Strict)
    }
}

impl<T, D: Lengths> OwnedArray<T, D> {
    /// The items that a slice argument leaves, to be read: `Strided::sliced`, with its errors, but out of memory first for an `IxDyn`
    /// of more than 4 axes. Not proved.
    ///
    /// ndarray's `slice`, which panics.
    ///
    /// ```
    /// use ndarray_layout::{Ix2, LayoutError, OwnedArray, s};
    ///
    /// # fn main() -> Result<(), LayoutError> {
    /// let table = OwnedArray::from_shape_vec(Ix2(2, 3), vec![0, 1, 2, 3, 4, 5])?;
    /// assert_eq!(table.sliced(s![.., 1..])?[(1, 0)], 4);
    /// # Ok(())
    /// # }
    /// ```
    #[inline]
    pub fn sliced<I: SliceArg<D>>(&self, slices: I) -> Result<ArrayView<'_, T, I::OutDim>, LayoutError> {
        self.try_view()?.slice_with(&slices, Fit::Strict)
    }

    /// The items that a slice argument leaves, to be written: `Strided::sliced`, with its errors, but out of memory first for an
    /// `IxDyn` of more than 4 axes. Not proved.
    ///
    /// ndarray's `slice_mut`, which panics.
    ///
    /// ```
    /// use ndarray_layout::{Ix2, LayoutError, OwnedArray, s};
    ///
    /// # fn main() -> Result<(), LayoutError> {
    /// let mut table = OwnedArray::from_shape_vec(Ix2(2, 3), vec![0, 1, 2, 3, 4, 5])?;
    /// table.slice_mut(s![.., 1..;2])?.fill(9);
    /// assert_eq!(table.stored(), [0, 9, 2, 3, 9, 5]);
    /// # Ok(())
    /// # }
    /// ```
    #[inline]
    pub fn slice_mut<I: SliceArg<D>>(&mut self, slices: I) -> Result<ArrayViewMut<'_, T, I::OutDim>, LayoutError> {
        self.try_view_mut()?.slice_move_with(&slices, Fit::Strict)
    }
}
