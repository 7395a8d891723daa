// Made by `rust/erase` of `crates/nd_lent/src/array_view_mut/zipping.rt`: edit that.
//! Writes to the items of a part by those of other arrays, side by side.

use crate::lent::nd_lent::array_view::ArrayView;
use crate::lent::nd_lent::array_view_mut::ArrayViewMut;
use crate::lent::nd_loops::{Beside, LentView, lent_view, zip_views};
use crate::ndarray_layout::{ErrorKind, Lengths, ShapeError, from_kind};

impl<U, D: Lengths> ArrayView<'_, U, D> {
    /// The array, to be read beside another one.
    ///
    /// <details><summary>Contract (proved)</summary>
    ///
    /// ```text
    /// ensures lens: result.lens ≡ self.now.view.shape
    /// ensures array: array_of_lent result ≡ self.now
    /// ```
    /// [How to read it](crate::contracts)
    /// </details>
    #[inline(always)]
    pub(in crate::lent::nd_lent) fn beside(&self) -> LentView<'_, U> {
        lent_view(self.reader(), self.strided())
    }
}

impl<'a, T: Sized, D: Lengths> ArrayViewMut<'a, T, D> {
    /// Calls a closure at each item and at what stands beside it in other arrays of the same shape, in row-major order, to change the
    /// first in place. Other items are unchanged.
    ///
    /// Takes no memory. Goes over the longest rows that the axes of all allow: arrays whose items follow one another are a loop over
    /// slices; in others each index takes the time of its place in each array.
    ///
    /// # Errors
    ///
    /// `IncompatibleShape` where another array has another shape; the items are unchanged, and the closure isn't called.
    ///
    /// <details><summary>Contract (proved)</summary>
    ///
    /// ```text
    /// requires few: length (C.layouts others) ≤ 5
    /// requires callable: C.have_shape others (array_of self.old).view.shape →
    ///     CallableBesideEach (shown_beside C.value) F.FnMut
    ///     (row_major_beside (array_of self.old) (C.at others)) f
    /// ensures fits: IsOk result ↔ C.have_shape others (array_of self.old).view.shape
    /// ensures fault: OnErr result (result_err result ≡ Some IncompatibleShape)
    /// ensures unchanged: OnErr result (array_of self.new ≡ array_of self.old)
    /// ensures ran: OnOk result (CallsMake (CalledBeside (shown_beside C.value) F.FnMut) f
    ///     (row_major_beside (array_of self.old) (C.at others)) (row_major_items (array_of self.new)))
    /// ensures zipped: OnOk result ((h : T × C.Value → T) → ActsBeside (shown_beside C.value) F.FnMut f h → HasItemsOf
    ///     (zipped_beside h (array_of self.old) (C.at others)) (array_of self.old) (array_of self.new))
    /// ensures view: (array_of self.new).view ≡ (array_of self.old).view
    /// ensures spare: KeepsSpare (array_of self.old) (array_of self.new)
    /// ensures keeps_access: access_of self.new ≡ access_of self.old
    /// ```
    /// [How to read it](crate::contracts)
    /// </details>
    #[inline(always)]
    pub(in crate::lent::nd_lent) fn zip_mut_with_all<C: Beside, F: FnMut(&mut T, C::Item)>(
        &mut self,
        others: C,
        f: F,
    ) -> Result<(), ShapeError> {
        if !others.have_shape(self.view.dim().slice()) {
            return Err(from_kind(ErrorKind::IncompatibleShape));
        }
        zip_views(&mut self.cells, &self.view, others, f);
        Ok(())
    }
}
