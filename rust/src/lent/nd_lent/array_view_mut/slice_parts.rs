// Made by `rust/erase` of `crates/nd_lent/src/array_view_mut/slice_parts.rt`: edit that.
//! The parts that slices pick, lent one after another, each of a type of its own.

use crate::lent::nd_access::Cells;
use crate::lent::nd_lent::array_view_mut::ArrayViewMut;
use crate::lent::nd_lent::array_view_mut::slices::check_apart;
use crate::ndarray_layout::{Fit, LayoutError, Lengths, ShapeError, SliceInfoElem, Strided};

/// The parts that slices pick and that are still to come, each of a type of its own: several may be used at once, and in threads,
/// whatever the strides are. The project's own.
pub struct SliceParts<'a, 's, T, D: Lengths> {
    pub(in crate::lent::nd_lent) cells: Cells<'a, T>,
    pub(in crate::lent::nd_lent) view: Strided<D>,
    pub(in crate::lent::nd_lent) slices: &'s [&'s [SliceInfoElem]],
    // The position of the slice whose part comes next.
    pub(in crate::lent::nd_lent) begun: usize,
}

impl<'a, T: Sized, D: Lengths> ArrayViewMut<'a, T, D> {
    /// The parts that slices pick, to be lent one after another, without a list of them: `multi_slice_move`, for parts of several
    /// types. The items that no slice picks are in none. That the items keep what is written is tested, and in no clause.
    ///
    /// Takes the time and the memory of the comparisons of `first_intersection_sorted`: for up to 4 slices no memory.
    ///
    /// `0,..` and `1,1` of `[2,3]` over 0 1 2 3 4 5: a part of `[3]` with 0 1 2, and one without axes with 4. ndarray's
    /// `multi_slice_move` of a tuple, which panics where two slices share an index.
    ///
    /// # Errors
    ///
    /// That of `check_slice` on the shape for the first slice that doesn't fit; then `Unsupported` where two slices share an index.
    /// The part is gone then. If an allocation fails, the slices are compared without memory.
    ///
    /// # Examples
    ///
    /// ```
    /// use ndarray_layout::{ArrayViewMut, ErrorKind, Ix0, Ix1, Ix2, LayoutError, SliceElems, from_kind, s};
    ///
    /// # fn main() -> Result<(), LayoutError> {
    /// let mut items = [0, 1, 2, 3, 4, 5];
    /// let mut table = ArrayViewMut::from_shape(Ix2(2, 3), &mut items)?;
    /// let (row, column, item) = (s![0, ..], s![.., 2], s![1, 1]);
    /// let slices = [row.elems(), item.elems()];
    /// let mut parts = table.view_mut().slice_parts(&slices)?;
    /// let (first, second) = (parts.try_next::<Ix1>()?, parts.try_next::<Ix0>()?);
    /// first.expect("a row").fill(9);
    /// second.expect("an item")[()] = 8;
    /// let crossing = [row.elems(), column.elems()];
    /// assert_eq!(table.slice_parts(&crossing).err(), Some(from_kind(ErrorKind::Unsupported)));
    /// assert_eq!(items, [9, 9, 9, 3, 8, 5]);
    /// # Ok(())
    /// # }
    /// ```
    ///
    /// <details><summary>Contract (proved)</summary>
    ///
    /// ```text
    /// ensures fault: IsFaultOfSlices None (array_of self.entry).view.shape
    ///     (map (λ slice. slice.now) slices.now) (result_err result)
    /// ensures parts: IfOk result (λ parts. parts_left parts ≡
    ///     map (slice_array (array_of self.entry).items (array_of self.entry).view)
    ///     (map (λ slice. slice.now) slices.now))
    /// ensures slices: IfOk result (λ parts. slices_left parts ≡ map (λ slice. slice.now) slices.now)
    /// ```
    /// [How to read it](crate::contracts)
    /// </details>
    #[inline]
    pub fn slice_parts<'s>(self, slices: &'s [&'s [SliceInfoElem]]) -> Result<SliceParts<'a, 's, T, D>, ShapeError> {
        let ArrayViewMut { cells, view } = self;
        check_apart(None, &view, slices)?;
        Ok(SliceParts { cells, view, slices, begun: 0 })
    }
}

impl<'a, 's, T: Sized, D: Lengths> SliceParts<'a, 's, T, D> {
    /// The next part; `None` where none is left. That the parts keep what is written is tested, and in no clause.
    ///
    /// Takes the time of `Strided::slice`.
    ///
    /// Of `0,..` and `1,1` of `[2,3]`: a part of `[3]`, then one without axes, then `None`. The project's own.
    ///
    /// # Errors
    ///
    /// `IncompatibleShape` where the slice leaves more axes or fewer than the type `E` fixes; then out of memory, never where `E`
    /// fixes the count of axes or at most 4 are left. What is still to come is unchanged after an error.
    ///
    /// # Examples
    ///
    /// ```
    /// use ndarray_layout::{ArrayViewMut, ErrorKind, Ix0, Ix1, Ix2, LayoutError, SliceElems, from_kind, s};
    ///
    /// # fn main() -> Result<(), LayoutError> {
    /// let mut items = [0, 1, 2, 3, 4, 5];
    /// let table = ArrayViewMut::from_shape(Ix2(2, 3), &mut items)?;
    /// let (row, item) = (s![0, ..], s![1, 1]);
    /// let slices = [row.elems(), item.elems()];
    /// let mut parts = table.slice_parts(&slices)?;
    /// // The first slice leaves one axis.
    /// assert_eq!(parts.try_next::<Ix2>().err(), Some(from_kind(ErrorKind::IncompatibleShape).into()));
    /// assert!(parts.try_next::<Ix1>()?.is_some_and(|row| row.iter().eq(&[0, 1, 2])));
    /// assert!(parts.try_next::<Ix0>()?.is_some_and(|item| item[()] == 4));
    /// assert!(parts.try_next::<Ix0>()?.is_none());
    /// # Ok(())
    /// # }
    /// ```
    ///
    /// <details><summary>Contract (proved)</summary>
    ///
    /// ```text
    /// ensures fault: shape_fault result ≡ next_slice_fault E.NDIM (slices_left self.old)
    /// ensures memory: shape_fault result ≡ None → All (λ slice. NeedsNoMemory E.NDIM (out_count slice))
    ///     (slices_left self.old) → IsOk result
    /// ensures unchanged: IfErr result (λ _. (parts_left self.new ≡ parts_left self.old)
    ///     × (slices_left self.new ≡ slices_left self.old))
    /// ensures first: IfOk result (λ next. MatchOption next
    ///     ((parts_left self.old ≡ []) × (parts_left self.new ≡ []))
    ///     (λ part. parts_left self.old ≡ array_of part ∷ parts_left self.new))
    /// ensures others: IfOk result (λ _. slices_left self.new ≡ drop 1 (slices_left self.old))
    /// ```
    /// [How to read it](crate::contracts)
    /// </details>
    #[inline]
    pub fn try_next<E: Lengths>(&mut self) -> Result<Option<ArrayViewMut<'a, T, E>>, LayoutError> {
        let Some(slice) = self.slices.get(self.begun) else {
            return Ok(None);
        };
        let view = self.view.slice(slice, Fit::Strict)?;
        self.begun += 1;
        Ok(Some(ArrayViewMut::take_from(&mut self.cells, view)))
    }
}
