// Made by `rust/erase` of `crates/nd_lent/src/array_view_mut/steps.rt`: edit that.
//! Other views of the items of a part: each is made as that of its layout is, and ends the part. No item is read or written.

use crate::lent::nd_lent::array_view_mut::ArrayViewMut;
use crate::memory::AllocError;
use crate::ndarray_layout::{Axis, Fit, LayoutError, Lengths, Order, RemoveAxis, SliceElems};

impl<'a, T: Sized, D: Lengths> ArrayViewMut<'a, T, D> {
    /// The part of the items that a slice argument leaves: `Strided::slice`, with its errors.
    ///
    /// `1..` of `[3]` over 7 8 9: 8 9. ndarray's `slice_move`.
    ///
    /// # Examples
    ///
    /// ```
    /// use ndarray_layout::{ArrayViewMut, Fit, Ix1, Ix2, LayoutError, s};
    ///
    /// # fn main() -> Result<(), LayoutError> {
    /// let mut items = [1, 2, 3, 4, 5, 6];
    /// let part = ArrayViewMut::from_shape(Ix2(2, 3), &mut items)?;
    /// let mut row: ArrayViewMut<'_, i32, Ix1> = part.slice_move_with(&s![1, ..;-2], Fit::Strict)?;
    /// assert_eq!((row[0], row[1]), (6, 4));
    /// row.fill(0);
    /// assert_eq!(items, [1, 2, 3, 0, 5, 0]);
    /// # Ok(())
    /// # }
    /// ```
    ///
    /// <details><summary>Contract (proved)</summary>
    ///
    /// ```text
    /// ensures fault: shape_fault result ≡
    ///     view_slice_fault fit E.NDIM (array_of self.entry).view.shape (S.list slices.now)
    /// ensures memory: shape_fault result ≡ None → NeedsNoMemory E.NDIM (out_count (S.list slices.now)) → IsOk result
    /// ensures array: IfOk result (λ a. IsArrayOfStep Descends
    ///     (selected fit (S.list slices.now) (array_of self.entry).view.shape)
    ///     (slice_of fit (S.list slices.now)) (array_of self.entry) (array_of a))
    /// ensures keeps_access: IfOk result (λ a. access_of a ≡ access_of self.entry)
    /// ```
    /// [How to read it](crate::contracts)
    /// </details>
    #[inline]
    pub fn slice_move_with<E: Lengths, S: SliceElems>(
        self,
        slices: &S,
        fit: Fit,
    ) -> Result<ArrayViewMut<'a, T, E>, LayoutError> {
        let ArrayViewMut { cells, view } = self;
        let view = view.slice(slices, fit)?;
        Ok(ArrayViewMut::of_cells(cells, view))
    }

    /// The part of the items that a slice argument leaves, for as long as this one is borrowed: `Strided::slice`, with its errors.
    /// Once it is gone, this part has what was written: that is tested, and in no clause.
    ///
    /// `1..` of `[3]` over 7 8 9: 8 9. ndarray's `slice_mut`.
    ///
    /// # Examples
    ///
    /// ```
    /// use ndarray_layout::{ArrayViewMut, Fit, Ix1, Ix2, LayoutError, s};
    ///
    /// # fn main() -> Result<(), LayoutError> {
    /// let mut items = [7, 8, 9, 10];
    /// let mut part = ArrayViewMut::from_shape(Ix2(2, 2), &mut items)?;
    /// let mut column: ArrayViewMut<'_, i32, Ix1> = part.slice_mut_with(&s![.., 1], Fit::Strict)?;
    /// assert!(column.set(&0, 0));
    /// assert!(part.set(&(1, 0), 1));
    /// assert_eq!(items, [7, 0, 1, 10]);
    /// # Ok(())
    /// # }
    /// ```
    ///
    /// <details><summary>Contract (proved)</summary>
    ///
    /// ```text
    /// ensures fault: shape_fault result ≡
    ///     view_slice_fault fit E.NDIM (array_of self.old).view.shape (S.list slices.now)
    /// ensures memory: shape_fault result ≡ None → NeedsNoMemory E.NDIM (out_count (S.list slices.now)) → IsOk result
    /// ensures array: IfOk result (λ a. IsArrayOfStep Descends
    ///     (selected fit (S.list slices.now) (array_of self.old).view.shape)
    ///     (slice_of fit (S.list slices.now)) (array_of self.old) (array_of a))
    /// ```
    /// [How to read it](crate::contracts)
    /// </details>
    #[inline]
    pub fn slice_mut_with<E: Lengths, S: SliceElems>(
        &mut self,
        slices: &S,
        fit: Fit,
    ) -> Result<ArrayViewMut<'_, T, E>, LayoutError> {
        let view = self.view.slice(slices, fit)?;
        Ok(self.borrowed(view))
    }

    /// The part once more, for as long as this one is borrowed. Once it is gone, this part has what was written: that is tested, and in
    /// no clause.
    ///
    /// ndarray's `view_mut`.
    ///
    /// # Errors
    ///
    /// Out of memory; never where the type fixes the count of axes or there are at most 4.
    ///
    /// # Examples
    ///
    /// ```
    /// use ndarray_layout::{ArrayViewMut, Ix2, LayoutError};
    ///
    /// # fn main() -> Result<(), LayoutError> {
    /// let mut items = [7, 8, 9, 10];
    /// let mut part = ArrayViewMut::from_shape(Ix2(2, 2), &mut items)?;
    /// let mut turned = part.reborrow()?.reversed_axes();
    /// assert!(turned.set(&(0, 1), 0));
    /// assert!(part.set(&(0, 1), 1));
    /// assert_eq!(items, [7, 1, 0, 10]);
    /// # Ok(())
    /// # }
    /// ```
    ///
    /// <details><summary>Contract (proved)</summary>
    ///
    /// ```text
    /// ensures memory: NeedsNoMemory D.NDIM (length (array_of self.old).view.shape) → IsOk result
    /// ensures array: IfOk result (λ a. array_of a ≡ array_of self.old)
    /// ```
    /// [How to read it](crate::contracts)
    /// </details>
    #[inline]
    pub fn reborrow(&mut self) -> Result<ArrayViewMut<'_, T, D>, AllocError> {
        let view = self.view.duplicate()?;
        Ok(self.borrowed(view))
    }

    /// The array with a dimension of another type: `Strided::into_dimensionality`, with its errors.
    ///
    /// `[2,3]` at `IxDyn` becomes the same at `Ix2`. ndarray's `into_dimensionality`.
    ///
    /// # Examples
    ///
    /// ```
    /// use ndarray_layout::{ArrayViewMut, Ix1, Ix2, IxDyn, LayoutError};
    ///
    /// # fn main() -> Result<(), LayoutError> {
    /// let mut items = [1, 2, 3, 4, 5, 6];
    /// let array: ArrayViewMut<'_, i32, IxDyn> = ArrayViewMut::from_shape(IxDyn(&[2, 3]), &mut items)?;
    /// let array = array.into_dimensionality::<Ix2>()?;
    /// assert_eq!(array.dim(), &Ix2(2, 3));
    /// assert!(array.into_dimensionality::<Ix1>().is_err());
    /// # Ok(())
    /// # }
    /// ```
    ///
    /// <details><summary>Contract (proved)</summary>
    ///
    /// ```text
    /// ensures fault: shape_fault result ≡ count_fault E.NDIM (length (array_of self.entry).view.shape)
    /// ensures memory: shape_fault result ≡ None →
    ///     NeedsNoMemory E.NDIM (length (array_of self.entry).view.shape) → IsOk result
    /// ensures array: IfOk result (λ a. array_of a ≡ array_of self.entry)
    /// ensures keeps_access: IfOk result (λ a. access_of a ≡ access_of self.entry)
    /// ```
    /// [How to read it](crate::contracts)
    /// </details>
    #[inline]
    pub fn into_dimensionality<E: Lengths>(self) -> Result<ArrayViewMut<'a, T, E>, LayoutError> {
        let ArrayViewMut { cells, view } = self;
        let view = view.into_dimensionality()?;
        Ok(ArrayViewMut::of_cells(cells, view))
    }

    /// The transpose: `Strided::reversed_axes`.
    ///
    /// (2,1) of the result is (1,2) of the part. ndarray's `reversed_axes`.
    ///
    /// # Examples
    ///
    /// ```
    /// use ndarray_layout::{ArrayViewMut, Ix2, LayoutError};
    ///
    /// # fn main() -> Result<(), LayoutError> {
    /// let mut items = [1, 2, 3, 4, 5, 6];
    /// let turned = ArrayViewMut::from_shape(Ix2(2, 3), &mut items)?.reversed_axes();
    /// assert_eq!((turned.dim(), turned[(2, 0)], turned[(2, 1)]), (&Ix2(3, 2), 3, 6));
    /// # Ok(())
    /// # }
    /// ```
    ///
    /// <details><summary>Contract (proved)</summary>
    ///
    /// ```text
    /// ensures array: IsArrayOfStep Descends reverse reversed_of (array_of self.entry) (array_of result)
    /// ensures keeps_access: access_of result ≡ access_of self.entry
    /// ```
    /// [How to read it](crate::contracts)
    /// </details>
    #[inline]
    #[must_use]
    pub fn reversed_axes(self) -> Self {
        let ArrayViewMut { cells, view } = self;
        let view = view.reversed_axes();
        ArrayViewMut::of_cells(cells, view)
    }

    /// The axes in another order: `Strided::permuted_axes`, with its errors.
    ///
    /// ndarray's `permuted_axes`.
    ///
    /// # Examples
    ///
    /// ```
    /// use ndarray_layout::{ArrayViewMut, Axis, Ix3, LayoutError};
    ///
    /// # fn main() -> Result<(), LayoutError> {
    /// let mut pixels = [10, 11, 12, 20, 21, 22];
    /// let picture = ArrayViewMut::from_shape(Ix3(1, 2, 3), &mut pixels)?;
    /// let planes = picture.permuted_axes(&[Axis(2), Axis(0), Axis(1)])?;
    /// assert_eq!((planes.dim(), planes[(2, 0, 1)]), (&Ix3(3, 1, 2), 22));
    /// assert!(planes.permuted_axes(&[Axis(0), Axis(1)]).is_err());
    /// # Ok(())
    /// # }
    /// ```
    ///
    /// <details><summary>Contract (proved)</summary>
    ///
    /// ```text
    /// ensures fault: shape_fault result ≡ permute_fault (array_of self.entry).view.shape (axis_numbers axes.now)
    /// ensures memory: shape_fault result ≡ None →
    ///     NeedsNoMemory D.NDIM (length (array_of self.entry).view.shape) → IsOk result
    /// ensures array: IfOk result (λ a. IsArrayOfStep Descends
    ///     (permute_source (axis_numbers axes.now)) (permuted_of (axis_numbers axes.now))
    ///     (array_of self.entry) (array_of a))
    /// ensures keeps_access: IfOk result (λ a. access_of a ≡ access_of self.entry)
    /// ```
    /// [How to read it](crate::contracts)
    /// </details>
    #[inline]
    pub fn permuted_axes(self, axes: &[Axis]) -> Result<Self, LayoutError> {
        let ArrayViewMut { cells, view } = self;
        let view = view.permuted_axes(axes)?;
        Ok(ArrayViewMut::of_cells(cells, view))
    }

    /// The same items along another shape, in an order: `Strided::reshape`, with its errors.
    ///
    /// ndarray's `into_shape_with_order`.
    ///
    /// # Examples
    ///
    /// ```
    /// use ndarray_layout::{ArrayViewMut, Ix1, Ix2, LayoutError, Order};
    ///
    /// # fn main() -> Result<(), LayoutError> {
    /// let mut items = [1, 2, 3, 4, 5, 6];
    /// let part = ArrayViewMut::from_shape(Ix2(2, 3), &mut items)?;
    /// let list = part.reshape(&Ix1(6), Order::RowMajor)?;
    /// assert_eq!(list[4], 5);
    /// assert!(list.reshape(&Ix1(5), Order::RowMajor).is_err());
    /// # Ok(())
    /// # }
    /// ```
    ///
    /// <details><summary>Contract (proved)</summary>
    ///
    /// ```text
    /// ensures fits: OnOk result (view_reshape_fault order (E.list shape.now) (array_of self.entry).view ≡ None)
    /// ensures fault: IfErr result (λ e. IsReshapeError E.NDIM order (E.list shape.now) (array_of self.entry).view e)
    /// ensures memory: view_reshape_fault order
    ///     (E.list shape.now) (array_of self.entry).view ≡ None →
    ///     NeedsNoMemory E.NDIM (length (E.list shape.now)) → IsOk result
    /// ensures complete: (view_reshape_fault order
    ///     (E.list shape.now) (array_of self.entry).view ≡ None)
    ///     ↔ ReshapeFits order (E.list shape.now) (array_of self.entry).view
    /// ensures array: IfOk result (λ a. IsArrayOfStep Descends
    ///     (reshape_source order (array_of self.entry).view.shape (E.list shape.now))
    ///     (reshape_of order (E.list shape.now)) (array_of self.entry) (array_of a))
    /// ensures keeps_access: IfOk result (λ a. access_of a ≡ access_of self.entry)
    /// ```
    /// [How to read it](crate::contracts)
    /// </details>
    #[inline]
    pub fn reshape<E: Lengths>(self, shape: &E, order: Order) -> Result<ArrayViewMut<'a, T, E>, LayoutError> {
        let ArrayViewMut { cells, view } = self;
        let view = view.reshape(shape, order)?;
        Ok(ArrayViewMut::of_cells(cells, view))
    }

    /// All chunks of a shape that lie side by side, as one part: `Strided::exact_chunks`, with its errors.
    ///
    /// Chunks of `[2]` of `[5]` over 5 6 7 8 9: 5 6 and 7 8. ndarray's `exact_chunks_mut`.
    ///
    /// # Examples
    ///
    /// ```
    /// use ndarray_layout::{ArrayViewMut, Ix1, Ix2, LayoutError};
    ///
    /// # fn main() -> Result<(), LayoutError> {
    /// let mut items = [5, 6, 7, 8, 9];
    /// let part = ArrayViewMut::from_shape(Ix1(5), &mut items)?;
    /// let chunks: ArrayViewMut<'_, i32, Ix2> = part.exact_chunks(&Ix1(2))?;
    /// assert_eq!((chunks.dim(), chunks[(1, 0)]), (&Ix2(2, 2), 7));
    /// # Ok(())
    /// # }
    /// ```
    ///
    /// <details><summary>Contract (proved)</summary>
    ///
    /// ```text
    /// ensures fault: shape_fault result ≡ chunks_fault E.NDIM (array_of self.entry).view.shape (D.list chunk.now)
    /// ensures memory: shape_fault result ≡ None → NeedsNoMemory E.NDIM
    ///     (length (array_of self.entry).view.shape + length (array_of self.entry).view.shape)
    ///     → IsOk result
    /// ensures array: IfOk result (λ a. IsArrayOfStep Descends
    ///     (chunk_source (D.list chunk.now)) (chunks_of (D.list chunk.now))
    ///     (array_of self.entry) (array_of a))
    /// ensures keeps_access: IfOk result (λ a. access_of a ≡ access_of self.entry)
    /// ```
    /// [How to read it](crate::contracts)
    /// </details>
    #[inline]
    pub fn exact_chunks<E: Lengths>(self, chunk: &D) -> Result<ArrayViewMut<'a, T, E>, LayoutError> {
        let ArrayViewMut { cells, view } = self;
        let view = view.exact_chunks(chunk)?;
        Ok(ArrayViewMut::of_cells(cells, view))
    }
}

impl<'a, T: Sized, D: RemoveAxis> ArrayViewMut<'a, T, D> {
    /// The items at one coordinate of an axis, without the axis: `Strided::index_axis`, with its errors.
    ///
    /// Coordinate 1 of axis 0 of `[2,3]`: the second row. ndarray's `index_axis_move`.
    ///
    /// # Examples
    ///
    /// ```
    /// use ndarray_layout::{ArrayViewMut, Axis, Ix2, LayoutError};
    ///
    /// # fn main() -> Result<(), LayoutError> {
    /// let mut items = [1, 2, 3, 4, 5, 6];
    /// let part = ArrayViewMut::from_shape(Ix2(2, 3), &mut items)?;
    /// let mut column = part.index_axis(Axis(1), 2)?;
    /// column[1] = 0;
    /// assert!(column.index_axis(Axis(0), 2).is_err());
    /// assert_eq!(items, [1, 2, 3, 4, 5, 0]);
    /// # Ok(())
    /// # }
    /// ```
    ///
    /// <details><summary>Contract (proved)</summary>
    ///
    /// ```text
    /// ensures fault: shape_fault result ≡ collapse_fault (array_of self.entry).view.shape axis.0 index
    /// ensures memory: shape_fault result ≡ None →
    ///     NeedsNoMemory D.Smaller.NDIM (length (array_of self.entry).view.shape - 1) →
    ///     IsOk result
    /// ensures array: IfOk result (λ a. IsArrayOfStep Descends
    ///     (index_source axis.0 index) (indexed_of axis.0 index)
    ///     (array_of self.entry) (array_of a))
    /// ensures keeps_access: IfOk result (λ a. access_of a ≡ access_of self.entry)
    /// ```
    /// [How to read it](crate::contracts)
    /// </details>
    #[inline]
    pub fn index_axis(self, axis: Axis, index: usize) -> Result<ArrayViewMut<'a, T, D::Smaller>, LayoutError> {
        let ArrayViewMut { cells, view } = self;
        let view = view.index_axis(axis, index)?;
        Ok(ArrayViewMut::of_cells(cells, view))
    }
}
