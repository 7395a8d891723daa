// Made by `rust/erase` of `crates/nd_lent/src/array_view_mut/pairs.rt`: edit that.
//! Writes to the items of a part by those of another array, side by side.

use crate::lent::nd_lent::array_view::ArrayView;
use crate::lent::nd_lent::array_view_mut::ArrayViewMut;
use crate::lent::nd_loops::{zip_nearest, zip_view};
use crate::memory::prelude::Vec;
use crate::ndarray_layout::{ErrorKind, Lengths, ShapeError, from_kind};

impl<'a, T: Sized, D: Lengths> ArrayViewMut<'a, T, D> {
    /// Calls a closure at each item and at that of the same index of another array of the same shape, in row-major order, to change
    /// the first in place. Other items are unchanged.
    ///
    /// Takes no memory. Goes over the longest rows that the axes of both allow (`Strided::joined_rows_with`): two whose items
    /// follow one another are a loop over two slices; in others each index takes the time of its place in both.
    ///
    /// `|item, other| *item += *other` with 5 6 at `[2]`, `[-1]` from 1 over 7 8 9: 13 13 9. ndarray's `zip_mut_with`.
    ///
    /// # Errors
    ///
    /// `IncompatibleShape` where the shapes differ; the items are unchanged, and the closure isn't called. (A shape that can be
    /// broadcast is an error too: `ArrayView::broadcast` comes first.)
    ///
    /// # Conditions
    ///
    /// The function may be called with any item of the array and any of the other one, whatever it was called with
    /// before. Where it panics, so does this call, and the items before keep what it wrote.
    ///
    /// # Examples
    ///
    /// ```
    /// use ndarray_layout::{ArrayView, ArrayViewMut, Ix1, Ix2, LayoutError};
    ///
    /// # fn main() -> Result<(), LayoutError> {
    /// let others = [1.5, 2.5, 3.5];
    /// let others = ArrayView::from_shape(Ix1(3), &others)?.broadcast(&Ix2(2, 3))?;
    /// let mut items = [1, 2, 3, 4, 5, 6];
    /// let mut part = ArrayViewMut::from_shape(Ix2(2, 3), &mut items)?;
    /// part.zip_mut_with(&others, |item, other| *item += *other as i32)?;
    /// assert_eq!(items, [2, 4, 6, 5, 7, 9]);
    /// # Ok(())
    /// # }
    /// ```
    ///
    /// <details><summary>Contract (proved)</summary>
    ///
    /// ```text
    /// requires (array_of self.old).view.shape ≡ other.now.view.shape →
    ///     CallableOnEachPair F.FnMut (row_major_pairs (array_of self.old) other.now) f
    /// ensures fits: IsOk result ↔ ((array_of self.old).view.shape ≡ other.now.view.shape)
    /// ensures fault: OnErr result (result_err result ≡ Some IncompatibleShape)
    /// ensures unchanged: OnErr result (array_of self.new ≡ array_of self.old)
    /// ensures ran: OnOk result (CallsMake (CalledAtPair F.FnMut) f
    ///     (row_major_pairs (array_of self.old) other.now) (row_major_items (array_of self.new)))
    /// ensures zipped: OnOk result ((h : T → U → T) → ActsAsAtPair F.FnMut f h → HasItemsOf
    ///     (zipped_at h (array_of self.old) other.now) (array_of self.old) (array_of self.new))
    /// ensures view: (array_of self.new).view ≡ (array_of self.old).view
    /// ensures spare: KeepsSpare (array_of self.old) (array_of self.new)
    /// ensures keeps_access: access_of self.new ≡ access_of self.old
    /// ```
    /// [How to read it](crate::contracts)
    /// </details>
    #[inline]
    pub fn zip_mut_with<U, F: FnMut(&mut T, &U)>(
        &mut self,
        other: &ArrayView<'_, U, D>,
        f: F,
    ) -> Result<(), ShapeError> {
        if !self.view.dim().equal(other.dim()) {
            return Err(from_kind(ErrorKind::IncompatibleShape));
        }
        let source = other.strided();
        zip_view(&mut self.cells, &self.view, other.reader(), source, f);
        Ok(())
    }

    /// Calls a closure at each item and at that of the same index of another array of the same shape, each index once, to change the
    /// first in place, in the order in which the items lie here: that in which ndarray goes. Other items are unchanged.
    ///
    /// It is `zip_mut_with` for a closure that needs no order. Takes no memory. With at most 6 axes it goes over the longest rows that
    /// the axes of both allow once they are turned and sorted by the strides here (`Strided::nearest_with`); with more axes as
    /// `zip_mut_with` does.
    ///
    /// `|item, other| *item += *other` with 5 6 at `[2]`, `[-1]` from 1 over 7 8 9: at 7 and 6, then at 8 and 5, 13 13 9. ndarray's
    /// `zip_mut_with`.
    ///
    /// # Errors
    ///
    /// `IncompatibleShape` where the shapes differ; the items are unchanged, and the closure isn't called. (A shape that can be
    /// broadcast is an error too: `ArrayView::broadcast` comes first.)
    ///
    /// # Conditions
    ///
    /// The function may be called with any item of the array and any of the other one, whatever it was called with
    /// before. Where it panics, so does this call, and the items before keep what it wrote.
    ///
    /// # Examples
    ///
    /// ```
    /// use ndarray_layout::{ArrayView, Ix2, LayoutError, ArrayViewMut};
    ///
    /// # fn main() -> Result<(), LayoutError> {
    /// let others = ArrayView::from_shape(Ix2(2, 2), &[10, 20, 30, 40])?;
    /// let (mut items, mut met) = ([1, 2, 3, 4], Vec::new());
    /// let mut turned = ArrayViewMut::from_shape(Ix2(2, 2), &mut items)?.reversed_axes();
    /// turned.zip_mut_with_nearest(&others, |item, other| {
    ///     met.push(*item);
    ///     *item += *other;
    /// })?;
    /// assert_eq!(met, [1, 2, 3, 4]);
    /// assert_eq!(items, [11, 32, 23, 44]);
    /// # Ok(())
    /// # }
    /// ```
    ///
    /// <details><summary>Contract (proved)</summary>
    ///
    /// ```text
    /// requires (array_of self.old).view.shape ≡ other.now.view.shape →
    ///     InAnyOrder (λ pairs. CallableOnEachPair F.FnMut pairs f)
    ///     (row_major_pairs (array_of self.old) other.now)
    /// ensures fits: IsOk result ↔ ((array_of self.old).view.shape ≡ other.now.view.shape)
    /// ensures fault: OnErr result (result_err result ≡ Some IncompatibleShape)
    /// ensures unchanged: OnErr result (array_of self.new ≡ array_of self.old)
    /// ensures ran: OnOk result (CallsMakeInSomeOrder (CalledAtPair F.FnMut) f
    ///     (row_major_pairs (array_of self.old) other.now) (row_major_items (array_of self.new)))
    /// ensures zipped: OnOk result ((h : T → U → T) → ActsAsAtPair F.FnMut f h → HasItemsOf
    ///     (zipped_at h (array_of self.old) other.now) (array_of self.old) (array_of self.new))
    /// ensures view: (array_of self.new).view ≡ (array_of self.old).view
    /// ensures spare: KeepsSpare (array_of self.old) (array_of self.new)
    /// ensures keeps_access: access_of self.new ≡ access_of self.old
    /// ```
    /// [How to read it](crate::contracts)
    /// </details>
    #[inline]
    pub fn zip_mut_with_nearest<U, F: FnMut(&mut T, &U)>(
        &mut self,
        other: &ArrayView<'_, U, D>,
        f: F,
    ) -> Result<(), ShapeError> {
        if !self.view.dim().equal(other.dim()) {
            return Err(from_kind(ErrorKind::IncompatibleShape));
        }
        let source = other.strided();
        zip_nearest(&mut self.cells, &self.view, &other.reader(), source, f);
        Ok(())
    }
}
