// Made by `rust/erase` of `crates/nd_lent/src/zip.rt`: edit that.
//! Arrays of one shape, gone over side by side.

use crate::lent::nd_lent::array_view::ArrayView;
use crate::lent::nd_lent::array_view_mut::ArrayViewMut;
use crate::lent::nd_loops::{Beside, LentView};
use crate::ndarray_layout::{Lengths, ShapeError};

/// A part of an array, and other arrays of its shape that are read beside it. ndarray's `Zip`, of which the first array is written, and
/// the others are read.
pub struct Zip<P, C> {
    part: P,
    beside: C,
}

impl<'z, 'a, T: Sized, D: Lengths> Zip<&'z mut ArrayViewMut<'a, T, D>, ()> {
    /// The part alone, which is to be written. ndarray's `from`.
    ///
    /// # Examples
    ///
    /// ```
    /// use ndarray_layout::{ArrayView, ArrayViewMut, Ix2, LayoutError, Zip};
    ///
    /// let b = [5, 6, 7, 8];
    /// let b = ArrayView::from_shape(Ix2(2, 2), &b)?;
    /// let mut items = [10, 20, 30, 40];
    /// let mut a = ArrayViewMut::from_shape(Ix2(2, 2), &mut items)?;
    /// Zip::from(&mut a).and(&b).for_each(|a, b| *a += b)?;
    /// assert_eq!(items, [15, 26, 37, 48]);
    /// # Ok::<(), LayoutError>(())
    /// ```
    ///
    /// <details><summary>Contract (proved)</summary>
    ///
    /// ```text
    /// ensures part: result.part.now ≡ part.old
    /// ```
    /// [How to read it](crate::contracts)
    /// </details>
    #[inline]
    #[must_use]
    pub fn from(part: &'z mut ArrayViewMut<'a, T, D>) -> Self {
        Zip { part, beside: () }
    }
}

impl<'z, 'a, T: Sized, D: Lengths, C: Beside> Zip<&'z mut ArrayViewMut<'a, T, D>, C> {
    /// The same with another array beside it, to be read. `for_each` looks whether it has the shape. ndarray's `and`.
    ///
    /// # Examples
    ///
    /// ```
    /// use ndarray_layout::{ArrayView, ArrayViewMut, Ix2, LayoutError, Zip};
    ///
    /// let (b, c, d, e) = ([5, 6, 7, 8], [1_u8, 2, 3, 4], [1.5, 2.5], [true, false, true, false]);
    /// let (b, c) = (ArrayView::from_shape(Ix2(2, 2), &b)?, ArrayView::from_shape(Ix2(2, 2), &c)?);
    /// let (d, e) = (ArrayView::from_shape(Ix2(1, 2), &d)?.broadcast(&Ix2(2, 2))?, ArrayView::from_shape(Ix2(2, 2), &e)?);
    /// let mut items = [10, 20, 30, 40];
    /// let mut a = ArrayViewMut::from_shape(Ix2(2, 2), &mut items)?;
    /// Zip::from(&mut a).and(&b).and(&c).and(&d).and(&e).for_each(|a, b, c, d, e| {
    ///     if *e {
    ///         *a += b * i32::from(*c) + *d as i32;
    ///     }
    /// })?;
    /// assert_eq!(items, [16, 20, 52, 40]);
    /// # Ok::<(), LayoutError>(())
    /// ```
    ///
    /// <details><summary>Contract (proved)</summary>
    ///
    /// ```text
    /// ensures part: result.part.now ≡ self.entry.part.now
    /// ensures beside: result.beside.0 ≡ self.entry.beside
    /// ensures shape: result.beside.1.lens ≡ other.now.view.shape
    /// ensures array: array_of_lent result.beside.1 ≡ other.now
    /// ```
    /// [How to read it](crate::contracts)
    /// </details>
    #[inline]
    #[must_use]
    pub fn and<U>(self, other: &'z ArrayView<'_, U, D>) -> Zip<&'z mut ArrayViewMut<'a, T, D>, (C, LentView<'z, U>)> {
        let Zip { part, beside } = self;
        Zip { part, beside: (beside, other.beside()) }
    }

    /// Calls a closure at each item of the part and at those of the same index of the others, in row-major order, to change the first
    /// in place. Other items are unchanged. The closure is shown the others' items as nested pairs: `|a, ((((), b), c), d)|`.
    ///
    /// Takes no memory. Goes over the longest rows that the axes of all allow: arrays whose items follow one another are a loop over
    /// slices; in others each index takes the time of its place in each array.
    ///
    /// `|a, (((), b), c)| *a += b * c` at `[2]` with 5 6 and 3 4 beside 7 8: 22 32. ndarray's `for_each`.
    ///
    /// # Errors
    ///
    /// `IncompatibleShape` where another array has another shape; the items are unchanged, and the closure isn't called. (A shape that
    /// can be broadcast is an error too: `ArrayView::broadcast` comes first.)
    ///
    /// # Conditions
    ///
    /// The caller ensures that at most five arrays are beside the part. Otherwise this call or a later one panics or
    /// returns unspecified values.
    ///
    /// # Examples
    ///
    /// ```
    /// use ndarray_layout::{ArrayView, ArrayViewMut, ErrorKind, Ix1, LayoutError, Zip};
    ///
    /// let (b, c, mut items) = ([5, 6], [3, 4], [7, 8]);
    /// let (b, c) = (ArrayView::from_shape(Ix1(2), &b)?, ArrayView::from_shape(Ix1(2), &c)?);
    /// let mut a = ArrayViewMut::from_shape(Ix1(2), &mut items)?;
    /// Zip::from(&mut a).and(&b).and(&c).for_each_nested(|a, (((), b), c)| *a += b * c)?;
    /// let short = ArrayView::from_shape(Ix1(1), &[9])?;
    /// let error = Zip::from(&mut a).and(&short).for_each(|a, b| *a = *b).unwrap_err();
    /// assert_eq!(error.kind(), ErrorKind::IncompatibleShape);
    /// assert_eq!(items, [22, 32]);
    /// # Ok::<(), LayoutError>(())
    /// ```
    ///
    /// <details><summary>Contract (proved)</summary>
    ///
    /// ```text
    /// requires few: length (C.layouts self.beside) ≤ 5
    /// requires callable: C.have_shape self.beside (array_of self.part.now).view.shape →
    ///     CallableBesideEach (shown_beside C.value) F.FnMut
    ///     (row_major_beside (array_of self.part.now) (C.at self.beside)) f
    /// ensures fits: IsOk result ↔ C.have_shape self.entry.beside (array_of self.entry.part.now).view.shape
    /// ensures fault: OnErr result (result_err result ≡ Some IncompatibleShape)
    /// ensures unchanged: OnErr result (array_of self.exit.0.now ≡ array_of self.entry.part.now)
    /// ensures ran: OnOk result (CallsMake (CalledBeside (shown_beside C.value) F.FnMut) f
    ///     (row_major_beside (array_of self.entry.part.now) (C.at self.entry.beside))
    ///     (row_major_items (array_of self.exit.0.now)))
    /// ensures zipped: OnOk result ((h : T × C.Value → T) → ActsBeside (shown_beside C.value) F.FnMut f h → HasItemsOf
    ///     (zipped_beside h (array_of self.entry.part.now) (C.at self.entry.beside))
    ///     (array_of self.entry.part.now) (array_of self.exit.0.now))
    /// ensures view: (array_of self.exit.0.now).view ≡ (array_of self.entry.part.now).view
    /// ensures spare: KeepsSpare (array_of self.entry.part.now) (array_of self.exit.0.now)
    /// ensures keeps_access: access_of self.exit.0.now ≡ access_of self.entry.part.now
    /// ```
    /// [How to read it](crate::contracts)
    /// </details>
    #[inline(always)]
    pub fn for_each_nested<F: FnMut(&mut T, C::Item)>(self, f: F) -> Result<(), ShapeError> {
        let Zip { part, beside } = self;
        part.zip_mut_with_all(beside, f)
    }
}
