// Made by `rust/erase` of `crates/nd_lent/src/array_view/folding_with.rt`: edit that.
//! A function that is called at the items of two arrays in step, row by row.

use crate::lent::nd_access::LentRows;
use crate::lent::nd_lent::array_view::ArrayView;
use crate::lent::nd_loops::fold_pair_rows;
use crate::ndarray_layout::{ErrorKind, Lengths, Order, ShapeError, from_kind};

impl<T, D: Lengths> ArrayView<'_, T, D> {
    /// The last result of a function that is called at each item and at that of the same index of another array of the same shape, in
    /// row-major order, with the result before, first with `init`.
    ///
    /// Takes no memory. Goes over the longest rows that the axes of both allow (`Strided::joined_rows_with`): two whose items
    /// follow one another are a loop over two slices; in others each index takes the time of its place in both.
    ///
    /// `a.fold_with(&b, 0, |sum, x, y| sum + x * y)` is 8·5 + 7·6 = 82 with 5 6 as `b`. ndarray's `dot` of numbers, and `fold` of its
    /// `Zip`.
    ///
    /// # Errors
    ///
    /// `IncompatibleShape` where the shapes differ; the function isn't called. (A shape that can be broadcast is an error too:
    /// `ArrayView::broadcast` comes first.)
    ///
    /// # Conditions
    ///
    /// The function may be called with any item of the array and any of the other one, after any result that it has
    /// returned. Where it panics, so does this call.
    ///
    /// # Examples
    ///
    /// ```
    /// use ndarray_layout::{ArrayView, ErrorKind, Ix1, LayoutError, ShapeBuilder, unsigned};
    ///
    /// # fn main() -> Result<(), LayoutError> {
    /// let a = ArrayView::from_shape(Ix1(2).strides(Ix1(unsigned(-1)))?, &[7, 8, 9])?;
    /// let b = ArrayView::from_shape(Ix1(2), &[5, 6])?;
    /// assert_eq!(a.fold_with(&b, 0, |sum, x, y| sum + x * y)?, 82);
    /// let three = ArrayView::from_shape(Ix1(3), &[5, 6, 7])?;
    /// let fault = a.fold_with(&three, 0, |sum, x, y| sum + x * y).err();
    /// assert_eq!(fault.map(|fault| fault.kind()), Some(ErrorKind::IncompatibleShape));
    /// # Ok(())
    /// # }
    /// ```
    ///
    /// <details><summary>Contract (proved)</summary>
    ///
    /// ```text
    /// requires callable: self.now.view.shape ≡ other.now.view.shape →
    ///     CallableInFoldOfPairs F.FnMut (row_major_pairs self.now other.now) f init
    /// ensures fits: IsOk result ↔ (self.now.view.shape ≡ other.now.view.shape)
    /// ensures fault: OnErr result (result_err result ≡ Some IncompatibleShape)
    /// ensures ran: IfOk result (FoldsPairs F.FnMut (row_major_pairs self.now other.now) f init)
    /// ```
    /// [How to read it](crate::contracts)
    /// </details>
    #[inline]
    pub fn fold_with<U, B: Sized, F: FnMut(B, &T, &U) -> B>(
        &self,
        other: &ArrayView<'_, U, D>,
        init: B,
        f: F,
    ) -> Result<B, ShapeError> {
        if !self.dim().equal(other.dim()) {
            return Err(from_kind(ErrorKind::IncompatibleShape));
        }
        let (rows, others) = self.strided().joined_rows_with(other.strided(), Order::RowMajor);
        let rows = LentRows::new(self.reader(), rows);
        let others = LentRows::new(other.reader(), others);
        Ok(fold_pair_rows(rows, others, init, f))
    }
}
