// Made by `rust/erase` of `crates/nd_lent/src/array_view_mut/triples.rt`: edit that.
//! Writes to the items of a part by those of two other arrays, side by side.

use crate::lent::nd_lent::array_view::ArrayView;
use crate::lent::nd_lent::array_view_mut::ArrayViewMut;
use crate::lent::nd_loops::{Beside, zip_two_view};
use crate::ndarray_layout::{ErrorKind, Lengths, ShapeError, from_kind};

impl<'a, T: Sized, D: Lengths> ArrayViewMut<'a, T, D> {
    /// Calls a closure at each item and at those of the same index of two other arrays of the same shape, in row-major order, to
    /// change the first in place. Other items are unchanged.
    ///
    /// Takes no memory. Goes over the longest rows that the axes of all three allow (`Strided::joined_rows_with_two`): three whose items
    /// follow one another are a loop over three slices; in others each index takes the time of its place in each array.
    ///
    /// `|item, other, third| *item += other * third` with 5 6 and 3 4 at `[2]`, `[-1]` from 1 over 7 8 9: 31 23 9. ndarray's
    /// `Zip::from(..).and(..).and(..)`.
    ///
    /// # Errors
    ///
    /// `IncompatibleShape` where another array has another shape; the items are unchanged, and the closure isn't called. (A shape that
    /// can be broadcast is an error too: `ArrayView::broadcast` comes first.)
    ///
    /// # Conditions
    ///
    /// The function may be called with any item of the array and any of the other two, whatever it was called with
    /// before. Where it panics, so does this call, and the items before keep what it wrote.
    ///
    /// # Examples
    ///
    /// ```
    /// use ndarray_layout::{ArrayView, ArrayViewMut, ErrorKind, Ix1, LayoutError, ShapeBuilder, unsigned};
    ///
    /// # fn main() -> Result<(), LayoutError> {
    /// let mut items = [7, 8, 9];
    /// let mut a = ArrayViewMut::from_shape(Ix1(2).strides(Ix1(unsigned(-1)))?, &mut items)?;
    /// let (others, thirds) = ([5_u8, 6], [3_u16, 4]);
    /// let others = ArrayView::from_shape(Ix1(2), &others)?;
    /// let thirds = ArrayView::from_shape(Ix1(2), &thirds)?;
    /// a.zip_mut_with_two(&others, &thirds, |item, other, third| *item += i32::from(*other) * i32::from(*third))?;
    /// let fault = a.zip_mut_with_two(&others, &ArrayView::from_shape(Ix1(1), &[3])?, |_, _, _| ()).err();
    /// assert_eq!(fault.map(|error| error.kind()), Some(ErrorKind::IncompatibleShape));
    /// assert_eq!(items, [31, 23, 9]);
    /// # Ok(())
    /// # }
    /// ```
    ///
    /// <details><summary>Contract (proved)</summary>
    ///
    /// ```text
    /// requires (array_of self.old).view.shape ≡ other.now.view.shape →
    ///     (array_of self.old).view.shape ≡ third.now.view.shape →
    ///     CallableOnEachTriple F.FnMut
    ///     (row_major_triples (array_of self.old) other.now third.now) f
    /// ensures fits: IsOk result ↔ (((array_of self.old).view.shape ≡ other.now.view.shape)
    ///     × ((array_of self.old).view.shape ≡ third.now.view.shape))
    /// ensures fault: OnErr result (result_err result ≡ Some IncompatibleShape)
    /// ensures unchanged: OnErr result (array_of self.new ≡ array_of self.old)
    /// ensures ran: OnOk result (CallsMake (CalledAtTriple F.FnMut) f
    ///     (row_major_triples (array_of self.old) other.now third.now)
    ///     (row_major_items (array_of self.new)))
    /// ensures zipped: OnOk result ((h : T → U → V → T) → ActsAsAtTriple F.FnMut f h → HasItemsOf
    ///     (zipped_two_at h (array_of self.old) other.now third.now)
    ///     (array_of self.old) (array_of self.new))
    /// ensures view: (array_of self.new).view ≡ (array_of self.old).view
    /// ensures spare: KeepsSpare (array_of self.old) (array_of self.new)
    /// ensures keeps_access: access_of self.new ≡ access_of self.old
    /// ```
    /// [How to read it](crate::contracts)
    /// </details>
    #[inline]
    pub fn zip_mut_with_two<U, V, F: FnMut(&mut T, &U, &V)>(
        &mut self,
        other: &ArrayView<'_, U, D>,
        third: &ArrayView<'_, V, D>,
        f: F,
    ) -> Result<(), ShapeError> {
        let others = (other.beside(), third.beside());
        if !others.have_shape(self.view.dim().slice()) {
            return Err(from_kind(ErrorKind::IncompatibleShape));
        }
        zip_two_view(&mut self.cells, &self.view, others, f);
        Ok(())
    }
}
