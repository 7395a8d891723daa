// Made by `rust/erase` of `crates/nd_lent/src/array_view/steps.rt`: edit that.
//! Other views of the items of an array: each is made as that of its layout is.

use crate::lent::nd_lent::array_view::ArrayView;
use crate::memory::prelude::Vec;
use crate::ndarray_layout::{
    Axis, Dimension, Fit, Ix1, LayoutError, Lengths, Order, RemoveAxis, ShapeError, SliceElems,
};

impl<'a, T, D: Lengths> ArrayView<'a, T, D> {
    /// The array of the items that a slice argument leaves: `Strided::slice`, with its errors.
    ///
    /// `1..` of `[3]` over 7 8 9: 8 9. ndarray's `slice`.
    ///
    /// # Examples
    ///
    /// ```
    /// use ndarray_layout::{ArrayView, Fit, Ix1, LayoutError, s};
    ///
    /// # fn main() -> Result<(), LayoutError> {
    /// let row = ArrayView::from_shape(Ix1(3), &[7, 8, 9])?;
    /// let part: ArrayView<'_, i32, Ix1> = row.slice_with(&s![1..], Fit::Strict)?;
    /// assert_eq!(part.to_vec()?, [8, 9]);
    /// assert!(row.slice_with::<Ix1, _>(&s![1..4], Fit::Strict).is_err());
    /// assert_eq!(row.slice_with::<Ix1, _>(&s![1..4], Fit::Clamp)?.to_vec()?, [8, 9]);
    /// # Ok(())
    /// # }
    /// ```
    ///
    /// <details><summary>Contract (proved)</summary>
    ///
    /// ```text
    /// ensures fault: shape_fault result ≡ view_slice_fault fit E.NDIM self.now.view.shape (S.list slices.now)
    /// ensures memory: shape_fault result ≡ None → NeedsNoMemory E.NDIM (out_count (S.list slices.now)) → IsOk result
    /// ensures array: IfOk result (IsArrayOfStep Descends
    ///     (selected fit (S.list slices.now) self.now.view.shape)
    ///     (slice_of fit (S.list slices.now)) self.now)
    /// ```
    /// [How to read it](crate::contracts)
    /// </details>
    #[inline]
    pub fn slice_with<E: Lengths, S: SliceElems>(
        &self,
        slices: &S,
        fit: Fit,
    ) -> Result<ArrayView<'a, T, E>, LayoutError> {
        let view = self.view.slice(slices, fit)?;
        Ok(ArrayView::of_reader(self.reader.copied(), view))
    }

    /// Reduces an axis to one of its coordinates: `Strided::collapse`, with its errors; the array is unchanged after one.
    ///
    /// Coordinate 1 of `[3]` over 7 8 9: 8 alone. ndarray's `collapse_axis`.
    ///
    /// # Examples
    ///
    /// ```
    /// use ndarray_layout::{ArrayView, Axis, Ix1, LayoutError};
    ///
    /// # fn main() -> Result<(), LayoutError> {
    /// let mut row = ArrayView::from_shape(Ix1(3), &[7, 8, 9])?;
    /// row.collapse(Axis(0), 1)?;
    /// assert_eq!(row.to_vec()?, [8]);
    /// assert!(row.collapse(Axis(0), 1).is_err());
    /// assert_eq!(row.to_vec()?, [8]);
    /// # Ok(())
    /// # }
    /// ```
    ///
    /// <details><summary>Contract (proved)</summary>
    ///
    /// ```text
    /// ensures fault: result_err result ≡ collapse_fault self.old.view.shape axis.0 index
    /// ensures unchanged: OnErr result (self.new ≡ self.old)
    /// ensures array: OnOk result (IsArrayOfStep Descends
    ///     (collapse_source axis.0 index) (collapse_of axis.0 index) self.old self.new)
    /// ```
    /// [How to read it](crate::contracts)
    /// </details>
    #[inline]
    pub fn collapse(&mut self, axis: Axis, index: usize) -> Result<(), ShapeError> {
        self.view.collapse(axis, index)
    }

    /// Swaps two axes: `Strided::swap_axes`, with its errors; the array is unchanged after one.
    ///
    /// ndarray's `swap_axes`.
    ///
    /// # Examples
    ///
    /// ```
    /// use ndarray_layout::{ArrayView, Axis, Ix2, LayoutError};
    ///
    /// # fn main() -> Result<(), LayoutError> {
    /// let mut table = ArrayView::from_shape(Ix2(2, 3), &[1, 2, 3, 4, 5, 6])?;
    /// table.swap_axes(Axis(0), Axis(1))?;
    /// assert_eq!(table.to_vec()?, [1, 4, 2, 5, 3, 6]);
    /// assert!(table.swap_axes(Axis(0), Axis(2)).is_err());
    /// assert_eq!(table.dim(), &Ix2(3, 2));
    /// # Ok(())
    /// # }
    /// ```
    ///
    /// <details><summary>Contract (proved)</summary>
    ///
    /// ```text
    /// ensures fault: result_err result ≡ swap_fault self.old.view.shape axis.0 other.0
    /// ensures unchanged: OnErr result (self.new ≡ self.old)
    /// ensures array: OnOk result (IsArrayOfStep Descends
    ///     (λ index. swap index axis.0 other.0) (swapped_of axis.0 other.0) self.old self.new)
    /// ```
    /// [How to read it](crate::contracts)
    /// </details>
    #[inline]
    pub fn swap_axes(&mut self, axis: Axis, other: Axis) -> Result<(), ShapeError> {
        self.view.swap_axes(axis, other)
    }

    /// The transpose: `Strided::reversed_axes`.
    ///
    /// (2,1) of the result is (1,2) of the array. ndarray's `reversed_axes`.
    ///
    /// # Examples
    ///
    /// ```
    /// use ndarray_layout::{ArrayView, Ix2, LayoutError};
    ///
    /// # fn main() -> Result<(), LayoutError> {
    /// let table = ArrayView::from_shape(Ix2(2, 3), &[1, 2, 3, 4, 5, 6])?;
    /// assert_eq!(table.get(&(1, 2)), Some(&6));
    /// let turned = table.reversed_axes();
    /// assert_eq!(turned.get(&(2, 1)), Some(&6));
    /// assert_eq!(turned.to_vec()?, [1, 4, 2, 5, 3, 6]);
    /// # Ok(())
    /// # }
    /// ```
    ///
    /// <details><summary>Contract (proved)</summary>
    ///
    /// ```text
    /// ensures IsArrayOfStep Descends reverse reversed_of self.entry result
    /// ```
    /// [How to read it](crate::contracts)
    /// </details>
    #[inline]
    #[must_use]
    pub fn reversed_axes(self) -> Self {
        let ArrayView { reader, view } = self;
        ArrayView::of_reader(reader, view.reversed_axes())
    }

    /// The axes in another order: `Strided::permuted_axes`, with its errors.
    ///
    /// ndarray's `permuted_axes`.
    ///
    /// # Examples
    ///
    /// ```
    /// use ndarray_layout::{ArrayView, Axis, Ix3, LayoutError};
    ///
    /// # fn main() -> Result<(), LayoutError> {
    /// let items: Vec<u8> = (0..24).collect();
    /// let block = ArrayView::from_shape(Ix3(2, 3, 4), &items)?;
    /// let permuted = block.permuted_axes(&[Axis(2), Axis(0), Axis(1)])?;
    /// assert_eq!(permuted.dim(), &Ix3(4, 2, 3));
    /// assert_eq!((permuted.get(&(3, 0, 1)), block.get(&(0, 1, 3))), (Some(&7), Some(&7)));
    /// assert!(block.permuted_axes(&[Axis(2), Axis(0), Axis(0)]).is_err());
    /// # Ok(())
    /// # }
    /// ```
    ///
    /// <details><summary>Contract (proved)</summary>
    ///
    /// ```text
    /// ensures fault: shape_fault result ≡ permute_fault self.now.view.shape (axis_numbers axes.now)
    /// ensures memory: shape_fault result ≡ None → NeedsNoMemory D.NDIM (length self.now.view.shape) → IsOk result
    /// ensures array: IfOk result (IsArrayOfStep Descends
    ///     (permute_source (axis_numbers axes.now)) (permuted_of (axis_numbers axes.now)) self.now)
    /// ```
    /// [How to read it](crate::contracts)
    /// </details>
    #[inline]
    pub fn permuted_axes(&self, axes: &[Axis]) -> Result<Self, LayoutError> {
        let view = self.view.permuted_axes(axes)?;
        Ok(ArrayView::of_reader(self.reader.copied(), view))
    }

    /// Reverses an axis: `Strided::invert_axis`, with its errors; the array is unchanged after one.
    ///
    /// Axis 0 of `[3]` over 7 8 9: 9 8 7. ndarray's `invert_axis`.
    ///
    /// # Examples
    ///
    /// ```
    /// use ndarray_layout::{ArrayView, Axis, Ix1, LayoutError};
    ///
    /// # fn main() -> Result<(), LayoutError> {
    /// let mut row = ArrayView::from_shape(Ix1(3), &[7, 8, 9])?;
    /// row.invert_axis(Axis(0))?;
    /// assert_eq!(row.to_vec()?, [9, 8, 7]);
    /// assert!(row.invert_axis(Axis(1)).is_err());
    /// assert_eq!(row.to_vec()?, [9, 8, 7]);
    /// # Ok(())
    /// # }
    /// ```
    ///
    /// <details><summary>Contract (proved)</summary>
    ///
    /// ```text
    /// ensures fault: result_err result ≡ invert_fault self.old.view.shape axis.0
    /// ensures unchanged: OnErr result (self.new ≡ self.old)
    /// ensures array: OnOk result (IsArrayOfStep Descends
    ///     (invert_source axis.0 self.old.view.shape) (inverted_of axis.0) self.old self.new)
    /// ```
    /// [How to read it](crate::contracts)
    /// </details>
    #[inline]
    pub fn invert_axis(&mut self, axis: Axis) -> Result<(), ShapeError> {
        self.view.invert_axis(axis)
    }

    /// Merges one axis into another: `Strided::merge`, with its errors; the array is unchanged after one, and after
    /// `Ok(false)`.
    ///
    /// ndarray's `merge_axes`.
    ///
    /// # Examples
    ///
    /// ```
    /// use ndarray_layout::{ArrayView, Axis, Ix2, LayoutError};
    ///
    /// # fn main() -> Result<(), LayoutError> {
    /// let mut table = ArrayView::from_shape(Ix2(2, 3), &[1, 2, 3, 4, 5, 6])?;
    /// let mut turned = table.duplicate()?.reversed_axes();
    /// assert!(!turned.merge(Axis(0), Axis(1))?);
    /// assert!(table.merge(Axis(0), Axis(1))?);
    /// assert_eq!((turned.dim(), table.dim()), (&Ix2(3, 2), &Ix2(1, 6)));
    /// assert!(table.merge(Axis(0), Axis(0)).is_err());
    /// # Ok(())
    /// # }
    /// ```
    ///
    /// <details><summary>Contract (proved)</summary>
    ///
    /// ```text
    /// ensures fault: result_err result ≡ axes_fault self.old.view.shape take.0 into.0
    /// ensures unchanged: OnErr result (self.new ≡ self.old)
    /// ensures fits: IfOk result (λ merged. IsTrue merged ↔ HasMergedStride take.0 into.0 self.old.view)
    /// ensures merged: IfOk result (λ merged. IsTrue merged → IsArrayOfStep Descends
    ///     (merge_source take.0 into.0 self.old.view.shape) (merge_of take.0 into.0)
    ///     self.old self.new)
    /// ensures unmerged: IfOk result (λ merged. merged ≡ false → self.new ≡ self.old)
    /// ```
    /// [How to read it](crate::contracts)
    /// </details>
    #[inline]
    pub fn merge(&mut self, take: Axis, into: Axis) -> Result<bool, ShapeError> {
        self.view.merge(take, into)
    }

    /// The same items along another shape, in an order: `Strided::reshape`, with its errors.
    ///
    /// ndarray's `to_shape` where it copies nothing.
    ///
    /// # Examples
    ///
    /// ```
    /// use ndarray_layout::{ArrayView, ErrorKind, Ix2, LayoutError, Order, from_kind};
    ///
    /// # fn main() -> Result<(), LayoutError> {
    /// let table = ArrayView::from_shape(Ix2(2, 3), &[1, 2, 3, 4, 5, 6])?;
    /// let tall = table.reshape(&Ix2(3, 2), Order::RowMajor)?;
    /// assert_eq!((tall.get(&(0, 1)), tall.get(&(2, 0))), (Some(&2), Some(&5)));
    /// let fault = table.reshape(&Ix2(3, 2), Order::ColumnMajor).err();
    /// assert_eq!(fault, Some(from_kind(ErrorKind::IncompatibleLayout).into()));
    /// # Ok(())
    /// # }
    /// ```
    ///
    /// <details><summary>Contract (proved)</summary>
    ///
    /// ```text
    /// ensures fits: OnOk result (view_reshape_fault order (E.list shape.now) self.now.view ≡ None)
    /// ensures fault: IfErr result (λ e. IsReshapeError E.NDIM order (E.list shape.now) self.now.view e)
    /// ensures memory: view_reshape_fault order (E.list shape.now) self.now.view ≡ None →
    ///     NeedsNoMemory E.NDIM (length (E.list shape.now)) → IsOk result
    /// ensures complete: (view_reshape_fault order (E.list shape.now) self.now.view ≡ None)
    ///     ↔ ReshapeFits order (E.list shape.now) self.now.view
    /// ensures array: IfOk result (IsArrayOfStep Descends
    ///     (reshape_source order self.now.view.shape (E.list shape.now))
    ///     (reshape_of order (E.list shape.now)) self.now)
    /// ```
    /// [How to read it](crate::contracts)
    /// </details>
    #[inline]
    pub fn reshape<E: Lengths>(&self, shape: &E, order: Order) -> Result<ArrayView<'a, T, E>, LayoutError> {
        let view = self.view.reshape(shape, order)?;
        Ok(ArrayView::of_reader(self.reader.copied(), view))
    }

    /// The array of a shape that this one can be broadcast to: `Strided::broadcast`, with its errors.
    ///
    /// `[1]` over 7 to `[3]`: 7 7 7. ndarray's `broadcast`.
    ///
    /// # Examples
    ///
    /// ```
    /// use ndarray_layout::{ArrayView, Ix1, LayoutError};
    ///
    /// # fn main() -> Result<(), LayoutError> {
    /// let one = ArrayView::from_shape(Ix1(1), &[7])?;
    /// let three = one.broadcast(&Ix1(3))?;
    /// assert_eq!(three.to_vec()?, [7, 7, 7]);
    /// assert!(three.broadcast(&Ix1(4)).is_err());
    /// # Ok(())
    /// # }
    /// ```
    ///
    /// <details><summary>Contract (proved)</summary>
    ///
    /// ```text
    /// ensures fault: shape_fault result ≡ broadcast_fault (E.list shape.now) self.now.view.shape
    /// ensures memory: shape_fault result ≡ None → NeedsNoMemory E.NDIM (length (E.list shape.now)) → IsOk result
    /// ensures array: IfOk result (IsArrayOfStep IsViewOf
    ///     (broadcast_source self.now.view.shape) (broadcast_of (E.list shape.now)) self.now)
    /// ```
    /// [How to read it](crate::contracts)
    /// </details>
    #[inline]
    pub fn broadcast<E: Lengths>(&self, shape: &E) -> Result<ArrayView<'a, T, E>, LayoutError> {
        let view = self.view.broadcast(shape)?;
        Ok(ArrayView::of_reader(self.reader.copied(), view))
    }

    /// All windows of a shape, as one array: `Strided::windows`, with its errors.
    ///
    /// Windows of `[2]` of `[3]` over 7 8 9: 7 8 and 8 9. ndarray's `windows`.
    ///
    /// # Examples
    ///
    /// ```
    /// use ndarray_layout::{ArrayView, Ix1, Ix2, LayoutError};
    ///
    /// # fn main() -> Result<(), LayoutError> {
    /// let row = ArrayView::from_shape(Ix1(3), &[7, 8, 9])?;
    /// let windows: ArrayView<'_, i32, Ix2> = row.windows(&Ix1(2))?;
    /// let rows: Vec<&[i32]> = windows.rows().filter_map(|row| row.as_slice()).collect();
    /// assert_eq!(rows, [[7, 8], [8, 9]]);
    /// assert!(row.windows::<Ix2>(&Ix1(0)).is_err());
    /// # Ok(())
    /// # }
    /// ```
    ///
    /// <details><summary>Contract (proved)</summary>
    ///
    /// ```text
    /// ensures fault: shape_fault result ≡ windows_fault E.NDIM self.now.view.shape (D.list window.now)
    /// ensures memory: shape_fault result ≡ None → NeedsNoMemory E.NDIM
    ///     (length self.now.view.shape + length self.now.view.shape) → IsOk result
    /// ensures array: IfOk result (IsArrayOfStep IsViewOf
    ///     (window_source (length self.now.view.shape)) (windows_of (D.list window.now)) self.now)
    /// ```
    /// [How to read it](crate::contracts)
    /// </details>
    #[inline]
    pub fn windows<E: Lengths>(&self, window: &D) -> Result<ArrayView<'a, T, E>, LayoutError> {
        let view = self.view.windows(window)?;
        Ok(ArrayView::of_reader(self.reader.copied(), view))
    }

    /// All chunks of a shape that lie side by side, as one array: `Strided::exact_chunks`, with its errors.
    ///
    /// Chunks of `[2]` of `[5]` over 5 6 7 8 9: 5 6 and 7 8. ndarray's `exact_chunks`.
    ///
    /// # Examples
    ///
    /// ```
    /// use ndarray_layout::{ArrayView, Ix1, Ix2, LayoutError};
    ///
    /// # fn main() -> Result<(), LayoutError> {
    /// let row = ArrayView::from_shape(Ix1(5), &[5, 6, 7, 8, 9])?;
    /// let chunks: ArrayView<'_, i32, Ix2> = row.exact_chunks(&Ix1(2))?;
    /// let rows: Vec<&[i32]> = chunks.rows().filter_map(|row| row.as_slice()).collect();
    /// assert_eq!(rows, [[5, 6], [7, 8]]);
    /// assert!(row.exact_chunks::<Ix2>(&Ix1(0)).is_err());
    /// # Ok(())
    /// # }
    /// ```
    ///
    /// <details><summary>Contract (proved)</summary>
    ///
    /// ```text
    /// ensures fault: shape_fault result ≡ chunks_fault E.NDIM self.now.view.shape (D.list chunk.now)
    /// ensures memory: shape_fault result ≡ None → NeedsNoMemory E.NDIM
    ///     (length self.now.view.shape + length self.now.view.shape) → IsOk result
    /// ensures array: IfOk result (IsArrayOfStep Descends
    ///     (chunk_source (D.list chunk.now)) (chunks_of (D.list chunk.now)) self.now)
    /// ```
    /// [How to read it](crate::contracts)
    /// </details>
    #[inline]
    pub fn exact_chunks<E: Lengths>(&self, chunk: &D) -> Result<ArrayView<'a, T, E>, LayoutError> {
        let view = self.view.exact_chunks(chunk)?;
        Ok(ArrayView::of_reader(self.reader.copied(), view))
    }

    /// The items of the indices with the same coordinate on each axis: `Strided::diag`.
    ///
    /// ndarray's `diag`.
    ///
    /// # Examples
    ///
    /// ```
    /// use ndarray_layout::{ArrayView, Ix2, LayoutError};
    ///
    /// # fn main() -> Result<(), LayoutError> {
    /// let table = ArrayView::from_shape(Ix2(2, 3), &[1, 2, 3, 4, 5, 6])?;
    /// assert_eq!(table.diag().to_vec()?, [1, 5]);
    /// # Ok(())
    /// # }
    /// ```
    ///
    /// <details><summary>Contract (proved)</summary>
    ///
    /// ```text
    /// ensures IsArrayOfStep Descends (diagonal_source (length self.now.view.shape)) diagonal_of self.now result
    /// ```
    /// [How to read it](crate::contracts)
    /// </details>
    #[inline]
    #[must_use]
    pub fn diag(&self) -> ArrayView<'a, T, Ix1> {
        ArrayView::of_reader(self.reader.copied(), self.view.diag())
    }

    /// The array with a dimension of another type: `Strided::into_dimensionality`, with its errors.
    ///
    /// `[2,3]` at `IxDyn` becomes the same at `Ix2`. ndarray's `into_dimensionality`.
    ///
    /// # Examples
    ///
    /// ```
    /// use ndarray_layout::{ArrayView, Ix1, Ix2, IxDyn, LayoutError};
    ///
    /// # fn main() -> Result<(), LayoutError> {
    /// let array: ArrayView<'_, i32, IxDyn> = ArrayView::from_shape(IxDyn(&[2, 3]), &[1, 2, 3, 4, 5, 6])?;
    /// let array = array.into_dimensionality::<Ix2>()?;
    /// assert_eq!(array.dim(), &Ix2(2, 3));
    /// assert!(array.into_dimensionality::<Ix1>().is_err());
    /// # Ok(())
    /// # }
    /// ```
    ///
    /// <details><summary>Contract (proved)</summary>
    ///
    /// ```text
    /// ensures fault: shape_fault result ≡ count_fault E.NDIM (length self.entry.view.shape)
    /// ensures memory: shape_fault result ≡ None → NeedsNoMemory E.NDIM (length self.entry.view.shape) → IsOk result
    /// ensures array: IfOk result (λ a. a ≡ self.entry)
    /// ```
    /// [How to read it](crate::contracts)
    /// </details>
    #[inline]
    pub fn into_dimensionality<E: Lengths>(self) -> Result<ArrayView<'a, T, E>, LayoutError> {
        let ArrayView { reader, view } = self;
        let view = view.into_dimensionality()?;
        Ok(ArrayView::of_reader(reader, view))
    }

    /// The two parts along an axis: `Strided::split_at`, with its errors.
    ///
    /// Axis 0 of `[3]` over 7 8 9 at 1: 7, and 8 9. ndarray's `split_at`.
    ///
    /// # Examples
    ///
    /// ```
    /// use ndarray_layout::{ArrayView, Axis, Ix1, LayoutError};
    ///
    /// # fn main() -> Result<(), LayoutError> {
    /// let row = ArrayView::from_shape(Ix1(3), &[7, 8, 9])?;
    /// let (first, second) = row.duplicate()?.split_at(Axis(0), 1)?;
    /// assert_eq!((first.to_vec()?, second.to_vec()?), (vec![7], vec![8, 9]));
    /// assert!(row.split_at(Axis(0), 4).is_err());
    /// # Ok(())
    /// # }
    /// ```
    ///
    /// <details><summary>Contract (proved)</summary>
    ///
    /// ```text
    /// ensures fault: shape_fault result ≡ split_fault self.entry.view.shape axis.0 index
    /// ensures memory: shape_fault result ≡ None → NeedsNoMemory D.NDIM (length self.entry.view.shape) → IsOk result
    /// ensures first: IfOk result (λ (first, second). IsArrayOfStep Descends
    ///     (λ coordinates. coordinates) (first_part_of axis.0 index) self.entry first)
    /// ensures second: IfOk result (λ (first, second). IsArrayOfStep Descends
    ///     (second_source axis.0 index) (second_part_of axis.0 index) self.entry second)
    /// ```
    /// [How to read it](crate::contracts)
    /// </details>
    #[inline]
    pub fn split_at(self, axis: Axis, index: usize) -> Result<(Self, Self), LayoutError> {
        let ArrayView { reader, view } = self;
        let (first, second) = view.split_at(axis, index)?;
        Ok((ArrayView::of_reader(reader.copied(), first), ArrayView::of_reader(reader, second)))
    }
}

impl<'a, T, D: Lengths + Clone> ArrayView<'a, T, D> {
    /// The items of the coordinates from `starts` to `ends`, one of each for each axis: `Strided::crop`.
    ///
    /// From (1) to (3) of `[3]` over 7 8 9: 8 9; to (4) `None`. In place of ndarray's `slice` by ranges.
    ///
    /// # Examples
    ///
    /// ```
    /// use ndarray_layout::{ArrayView, Ix1, LayoutError};
    ///
    /// # fn main() -> Result<(), LayoutError> {
    /// let row = ArrayView::from_shape(Ix1(3), &[7, 8, 9])?;
    /// let part = row.crop(&Ix1(1), &Ix1(3)).expect("both bounds fit");
    /// assert_eq!(part.to_vec()?, [8, 9]);
    /// assert!(row.crop(&Ix1(1), &Ix1(4)).is_none());
    /// # Ok(())
    /// # }
    /// ```
    ///
    /// <details><summary>Contract (proved)</summary>
    ///
    /// ```text
    /// ensures found: IsSome result ↔ RangesFit self.now.view.shape (D.list starts.now) (D.list ends.now)
    /// ensures array: IfSome result (IsArrayOfStep Descends
    ///     (crop_source (D.list starts.now))
    ///     (cropped_of (D.list starts.now) (D.list ends.now)) self.now)
    /// ```
    /// [How to read it](crate::contracts)
    /// </details>
    #[must_use]
    #[inline]
    pub fn crop(&self, starts: &D, ends: &D) -> Option<Self> {
        let view = self.view.crop(starts, ends)?;
        Some(ArrayView::of_reader(self.reader.copied(), view))
    }
}

impl<'a, T, D: RemoveAxis> ArrayView<'a, T, D> {
    /// The items at one coordinate of an axis, without the axis: `Strided::index_axis`, with its errors.
    ///
    /// Coordinate 1 of axis 0 of `[2,3]`: the second row. ndarray's `index_axis`.
    ///
    /// # Examples
    ///
    /// ```
    /// use ndarray_layout::{ArrayView, Axis, Ix2, LayoutError};
    ///
    /// # fn main() -> Result<(), LayoutError> {
    /// let table = ArrayView::from_shape(Ix2(2, 3), &[1, 2, 3, 4, 5, 6])?;
    /// assert_eq!(table.index_axis(Axis(0), 1)?.to_vec()?, [4, 5, 6]);
    /// assert_eq!(table.index_axis(Axis(1), 1)?.to_vec()?, [2, 5]);
    /// assert!(table.index_axis(Axis(0), 2).is_err());
    /// # Ok(())
    /// # }
    /// ```
    ///
    /// <details><summary>Contract (proved)</summary>
    ///
    /// ```text
    /// ensures fault: shape_fault result ≡ collapse_fault self.now.view.shape axis.0 index
    /// ensures memory: shape_fault result ≡ None →
    ///     NeedsNoMemory D.Smaller.NDIM (length self.now.view.shape - 1) → IsOk result
    /// ensures array: IfOk result (IsArrayOfStep Descends
    ///     (index_source axis.0 index) (indexed_of axis.0 index) self.now)
    /// ```
    /// [How to read it](crate::contracts)
    /// </details>
    #[inline]
    pub fn index_axis(&self, axis: Axis, index: usize) -> Result<ArrayView<'a, T, D::Smaller>, LayoutError> {
        let view = self.view.index_axis(axis, index)?;
        Ok(ArrayView::of_reader(self.reader.copied(), view))
    }
}

impl<'a, T, D: Dimension> ArrayView<'a, T, D> {
    /// The array with a new axis of length 1: `Strided::insert_axis`, with its errors.
    ///
    /// ndarray's `insert_axis`.
    ///
    /// # Examples
    ///
    /// ```
    /// use ndarray_layout::{ArrayView, Axis, Ix2, Ix3, LayoutError};
    ///
    /// # fn main() -> Result<(), LayoutError> {
    /// let table = ArrayView::from_shape(Ix2(2, 3), &[1, 2, 3, 4, 5, 6])?;
    /// let inserted = table.insert_axis(Axis(1))?;
    /// assert_eq!(inserted.dim(), &Ix3(2, 1, 3));
    /// assert_eq!(inserted.get(&(1, 0, 2)), Some(&6));
    /// assert!(table.insert_axis(Axis(3)).is_err());
    /// # Ok(())
    /// # }
    /// ```
    ///
    /// <details><summary>Contract (proved)</summary>
    ///
    /// ```text
    /// ensures fault: shape_fault result ≡ insert_fault self.now.view.shape axis.0
    /// ensures memory: shape_fault result ≡ None →
    ///     NeedsNoMemory D.Larger.NDIM (length self.now.view.shape + 1) → IsOk result
    /// ensures array: IfOk result (IsArrayOfStep Descends (insert_source axis.0) (inserted_of axis.0) self.now)
    /// ```
    /// [How to read it](crate::contracts)
    /// </details>
    #[inline]
    pub fn insert_axis(&self, axis: Axis) -> Result<ArrayView<'a, T, D::Larger>, LayoutError> {
        let view = self.view.insert_axis(axis)?;
        Ok(ArrayView::of_reader(self.reader.copied(), view))
    }
}
