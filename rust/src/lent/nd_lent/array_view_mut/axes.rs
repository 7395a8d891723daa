// Made by `rust/erase` of `crates/nd_lent/src/array_view_mut/axes.rt`: edit that.
//! Axes of a part: reversed and swapped in place, or other views with one more, fewer or shorter
//! ones, each made as that of its layout is.

use crate::lent::nd_lent::array_view_mut::ArrayViewMut;
use crate::ndarray_layout::{Axis, Dimension, Ix1, LayoutError, Lengths, ShapeError};

impl<'a, T: Sized, D: Lengths> ArrayViewMut<'a, T, D> {
    /// Reverses an axis: `Strided::invert_axis`, with its errors; the part is unchanged after one. No item is written.
    ///
    /// Axis 0 of `[3]` over 7 8 9: 9 8 7. ndarray's `invert_axis`.
    ///
    /// # Examples
    ///
    /// ```
    /// use ndarray_layout::{ArrayViewMut, Axis, Ix1, LayoutError};
    ///
    /// # fn main() -> Result<(), LayoutError> {
    /// let mut items = [7, 8, 9];
    /// let mut part = ArrayViewMut::from_shape(Ix1(3), &mut items)?;
    /// part.invert_axis(Axis(0))?;
    /// assert_eq!((part[0], part[2]), (9, 7));
    /// assert!(part.invert_axis(Axis(1)).is_err());
    /// # Ok(())
    /// # }
    /// ```
    ///
    /// <details><summary>Contract (proved)</summary>
    ///
    /// ```text
    /// ensures fault: result_err result ≡ invert_fault (array_of self.old).view.shape axis.0
    /// ensures unchanged: OnErr result (array_of self.new ≡ array_of self.old)
    /// ensures array: OnOk result (IsArrayOfStep Descends
    ///     (invert_source axis.0 (array_of self.old).view.shape) (inverted_of axis.0)
    ///     (array_of self.old) (array_of self.new))
    /// ensures keeps_access: access_of self.new ≡ access_of self.old
    /// ```
    /// [How to read it](crate::contracts)
    /// </details>
    #[inline]
    pub fn invert_axis(&mut self, axis: Axis) -> Result<(), ShapeError> {
        self.view.invert_axis(axis)
    }

    /// Swaps two axes: `Strided::swap_axes`, with its errors; the part is unchanged after one. No item is written.
    ///
    /// ndarray's `swap_axes`.
    ///
    /// # Examples
    ///
    /// ```
    /// use ndarray_layout::{ArrayViewMut, Axis, Ix2, LayoutError};
    ///
    /// # fn main() -> Result<(), LayoutError> {
    /// let mut items = [1, 2, 3, 4, 5, 6];
    /// let mut part = ArrayViewMut::from_shape(Ix2(2, 3), &mut items)?;
    /// part.swap_axes(Axis(0), Axis(1))?;
    /// assert_eq!((part.dim(), part[(2, 0)]), (&Ix2(3, 2), 3));
    /// assert!(part.swap_axes(Axis(0), Axis(2)).is_err());
    /// # Ok(())
    /// # }
    /// ```
    ///
    /// <details><summary>Contract (proved)</summary>
    ///
    /// ```text
    /// ensures fault: result_err result ≡ swap_fault (array_of self.old).view.shape axis.0 other.0
    /// ensures unchanged: OnErr result (array_of self.new ≡ array_of self.old)
    /// ensures array: OnOk result (IsArrayOfStep Descends
    ///     (λ index. swap index axis.0 other.0) (swapped_of axis.0 other.0)
    ///     (array_of self.old) (array_of self.new))
    /// ensures keeps_access: access_of self.new ≡ access_of self.old
    /// ```
    /// [How to read it](crate::contracts)
    /// </details>
    #[inline]
    pub fn swap_axes(&mut self, axis: Axis, other: Axis) -> Result<(), ShapeError> {
        self.view.swap_axes(axis, other)
    }

    /// The items of the indices with the same coordinate on each axis: `Strided::diag`.
    ///
    /// `[2,2]` over 5 6 7 8: 5 8. ndarray's `diag_mut`.
    ///
    /// # Examples
    ///
    /// ```
    /// use ndarray_layout::{ArrayViewMut, Ix2, LayoutError};
    ///
    /// # fn main() -> Result<(), LayoutError> {
    /// let mut items = [5, 6, 7, 8];
    /// ArrayViewMut::from_shape(Ix2(2, 2), &mut items)?.diag().fill(0);
    /// assert_eq!(items, [0, 6, 7, 0]);
    /// # Ok(())
    /// # }
    /// ```
    ///
    /// <details><summary>Contract (proved)</summary>
    ///
    /// ```text
    /// ensures array: IsArrayOfStep Descends
    ///     (diagonal_source (length (array_of self.entry).view.shape)) diagonal_of
    ///     (array_of self.entry) (array_of result)
    /// ensures keeps_access: access_of result ≡ access_of self.entry
    /// ```
    /// [How to read it](crate::contracts)
    /// </details>
    #[inline]
    #[must_use]
    pub fn diag(self) -> ArrayViewMut<'a, T, Ix1> {
        let ArrayViewMut { cells, view } = self;
        let view = view.diag();
        ArrayViewMut::of_cells(cells, view)
    }
}

impl<'a, T: Sized, D: Lengths + Clone> ArrayViewMut<'a, T, D> {
    /// The items of the coordinates from `starts` to `ends`, one of each for each axis: `Strided::crop`.
    ///
    /// From (1) to (3) of `[3]` over 7 8 9: 8 9; to (4) `None`. In place of ndarray's `slice_move` by ranges.
    ///
    /// # Examples
    ///
    /// ```
    /// use ndarray_layout::{ArrayViewMut, Ix2, LayoutError};
    ///
    /// # fn main() -> Result<(), LayoutError> {
    /// let mut items = [1, 2, 3, 4, 5, 6];
    /// let part = ArrayViewMut::from_shape(Ix2(2, 3), &mut items)?;
    /// let Some(mut corner) = part.crop(&Ix2(1, 1), &Ix2(2, 3)) else {
    ///     panic!("the ranges fit");
    /// };
    /// corner.fill(0);
    /// assert!(corner.crop(&Ix2(0, 0), &Ix2(2, 2)).is_none());
    /// assert_eq!(items, [1, 2, 3, 4, 0, 0]);
    /// # Ok(())
    /// # }
    /// ```
    ///
    /// <details><summary>Contract (proved)</summary>
    ///
    /// ```text
    /// ensures found: IsSome result ↔ RangesFit (array_of self.entry).view.shape (D.list starts.now) (D.list ends.now)
    /// ensures array: IfSome result (λ a. IsArrayOfStep Descends
    ///     (crop_source (D.list starts.now)) (cropped_of (D.list starts.now) (D.list ends.now))
    ///     (array_of self.entry) (array_of a))
    /// ensures keeps_access: IfSome result (λ a. access_of a ≡ access_of self.entry)
    /// ```
    /// [How to read it](crate::contracts)
    /// </details>
    #[inline]
    #[must_use]
    pub fn crop(self, starts: &D, ends: &D) -> Option<Self> {
        let ArrayViewMut { cells, view } = self;
        let view = view.crop(starts, ends)?;
        Some(ArrayViewMut::of_cells(cells, view))
    }
}

impl<'a, T: Sized, D: Dimension> ArrayViewMut<'a, T, D> {
    /// The part with a new axis of length 1: `Strided::insert_axis`, with its errors.
    ///
    /// ndarray's `insert_axis`.
    ///
    /// # Examples
    ///
    /// ```
    /// use ndarray_layout::{ArrayViewMut, Axis, Ix1, Ix2, LayoutError};
    ///
    /// # fn main() -> Result<(), LayoutError> {
    /// let mut items = [7, 8, 9];
    /// let part = ArrayViewMut::from_shape(Ix1(3), &mut items)?;
    /// let column = part.insert_axis(Axis(1))?;
    /// assert_eq!((column.dim(), column[(2, 0)]), (&Ix2(3, 1), 9));
    /// # Ok(())
    /// # }
    /// ```
    ///
    /// <details><summary>Contract (proved)</summary>
    ///
    /// ```text
    /// ensures fault: shape_fault result ≡ insert_fault (array_of self.entry).view.shape axis.0
    /// ensures memory: shape_fault result ≡ None →
    ///     NeedsNoMemory D.Larger.NDIM (length (array_of self.entry).view.shape + 1) →
    ///     IsOk result
    /// ensures array: IfOk result (λ a. IsArrayOfStep Descends
    ///     (insert_source axis.0) (inserted_of axis.0) (array_of self.entry) (array_of a))
    /// ensures keeps_access: IfOk result (λ a. access_of a ≡ access_of self.entry)
    /// ```
    /// [How to read it](crate::contracts)
    /// </details>
    #[inline]
    pub fn insert_axis(self, axis: Axis) -> Result<ArrayViewMut<'a, T, D::Larger>, LayoutError> {
        let ArrayViewMut { cells, view } = self;
        let view = view.insert_axis(axis)?;
        Ok(ArrayViewMut::of_cells(cells, view))
    }
}
