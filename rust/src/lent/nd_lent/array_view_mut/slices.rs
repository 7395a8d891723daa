// Made by `rust/erase` of `crates/nd_lent/src/array_view_mut/slices.rt`: edit that.
//! The parts that slices pick, lent at once.

use crate::lent::nd_access::Cells;
use crate::lent::nd_lent::array_view_mut::ArrayViewMut;
use crate::memory::prelude::{FallibleVec, Vec};
use crate::ndarray_layout::{
    ErrorKind, Fit, LayoutError, Lengths, ShapeError, SliceElems, Strided, any_elems_intersection, check_elems,
    from_kind, out_ndim_of,
};

/// Checks that a slice fits a shape, and leaves as many axes as a type fixes, if it fixes a count. Errors: those of
/// `Strided::slice`, but for memory.
///
/// <details><summary>Contract (proved)</summary>
///
/// ```text
/// ensures result_err result ≡ view_slice_fault Strict fixed shape.now (S.list slice.now)
/// ```
/// [How to read it](crate::contracts)
/// </details>
#[inline(always)]
fn check_slice_into<S: SliceElems>(fixed: Option<usize>, shape: &[usize], slice: &S) -> Result<(), ShapeError> {
    let elems = slice.elems();
    if let Some(count) = fixed {
        if out_ndim_of(elems) != count {
            return Err(from_kind(ErrorKind::IncompatibleShape));
        }
    }
    check_elems(shape, elems, Fit::Strict)
}

/// Checks that each slice fits a shape, and leaves as many axes as a type fixes. Errors: that of the first slice with one.
///
/// <details><summary>Contract (proved)</summary>
///
/// ```text
/// ensures result_err result ≡ view_slices_fault Strict fixed shape.now (map S.list slices.now)
/// ```
/// [How to read it](crate::contracts)
/// </details>
#[inline]
fn check_slices_into<S: SliceElems>(fixed: Option<usize>, shape: &[usize], slices: &[S]) -> Result<(), ShapeError> {
    for slice in slices {
        check_slice_into(fixed, shape, slice)?;
    }
    Ok(())
}

/// Checks that each slice of a view fits it and leaves as many axes as a type fixes, and then that no two share an
/// index. Errors: that of the first slice with one, then `Unsupported`.
///
/// # Conditions
///
/// The caller ensures that no two indices of the view alias. Otherwise the behaviour is undefined.
///
/// <details><summary>Contract (proved)</summary>
///
/// ```text
/// requires HasDistinctPlaces view.now
/// ensures fault: IsFaultOfSlices fixed view.now.shape (map S.list slices.now) (result_err result)
/// ensures fit: OnOk result (view_slices_fault Strict fixed view.now.shape (map S.list slices.now) ≡ None)
/// ensures apart: OnOk result (AreApartInPlace view.now (map S.list slices.now))
/// ```
/// [How to read it](crate::contracts)
/// </details>
#[inline]
pub(in crate::lent::nd_lent) fn check_apart<D: Lengths, S: SliceElems>(
    fixed: Option<usize>,
    view: &Strided<D>,
    slices: &[S],
) -> Result<(), ShapeError> {
    let shape = view.dim().slice();
    check_slices_into(fixed, shape, slices)?;
    match any_elems_intersection(shape, slices, Fit::Strict) {
        Some(_) => Err(from_kind(ErrorKind::Unsupported)),
        None => Ok(()),
    }
}

/// For each slice of a view the part that it picks. Errors: out of memory, never where there is no slice.
///
/// # Conditions
///
/// The caller ensures that each index of the view has a marked place to itself, that each slice fits it and leaves as
/// many axes as the type fixes, and that no two slices share a place. Otherwise the behaviour is undefined.
///
/// <details><summary>Contract (proved)</summary>
///
/// ```text
/// requires fits: view_slices_fault Strict E.NDIM view.now.shape (map S.list slices.now) ≡ None
/// requires apart: AreApartInPlace view.now (map S.list slices.now)
/// ensures fault: shape_fault result ≡ None
/// ensures memory: slices.now ≡ [] → IsOk result
/// ensures parts: IfOk result (λ parts. map array_of parts.items ≡
///     map (slice_array cells.entry.items view.now) (map S.list slices.now))
/// ```
/// [How to read it](crate::contracts)
/// </details>
#[inline]
fn parts_of_slices<'a, T: Sized, D: Lengths, S: SliceElems, E: Lengths>(
    cells: Cells<'a, T>,
    view: &Strided<D>,
    slices: &[S],
) -> Result<Vec<ArrayViewMut<'a, T, E>>, LayoutError> {
    let mut parts = Vec::fallible_with_capacity(slices.len())?;
    let mut left = cells;
    for slice in slices {
        let picked: Strided<E> = view.slice(slice, Fit::Strict)?;
        let one = left.take_view(&picked);
        parts.fallible_push(ArrayViewMut::of_cells(one, picked))?;
    }
    Ok(parts)
}

impl<'a, T: Sized, D: Lengths> ArrayViewMut<'a, T, D> {
    /// The parts that slices pick, all lent at once, each to be sliced again: a thread of its own may write each, whatever the
    /// strides are. The items that no slice picks are in none. The type `E` of their shapes may fix a count of axes. That the items
    /// keep what is written is tested, and in no clause.
    ///
    /// Takes memory for the list, and nothing else for up to 4 slices where `E` fixes the count of axes or each leaves at most 4.
    /// Takes time for each slice, and for the comparisons of `first_intersection_sorted`, which takes memory too: if that fails,
    /// the slices are compared without it.
    ///
    /// `..,..;2` and `..,1` of `[2,3]` over 0 1 2 3 4 5: a part of `[2,2]` with 0 2 3 5, and one of `[2]` with 1 4. ndarray's
    /// `multi_slice_move`, which panics where two slices share an index.
    ///
    /// # Errors
    ///
    /// That of `Strided::slice` for the first slice that doesn't fit the shape: `IncompatibleShape` where it is for more axes or
    /// fewer, or leaves more or fewer than `E` fixes, then that of its first element with one; then `Unsupported` where two slices
    /// share an index; then out of memory, never where there is no slice. The part is gone then.
    ///
    /// # Examples
    ///
    /// ```
    /// use ndarray_layout::{ArrayViewMut, ErrorKind, Ix1, Ix2, IxDyn, LayoutError, SliceInfoElem, from_kind, s};
    ///
    /// # fn main() -> Result<(), LayoutError> {
    /// let mut items = [0, 1, 2, 3, 4, 5];
    /// let mut table = ArrayViewMut::from_shape(Ix2(2, 3), &mut items)?;
    /// let slices: [&[SliceInfoElem]; 2] = [&*s![.., ..;2], &*s![.., 1]];
    /// let mut parts = table.view_mut().multi_slice_move(&slices)?;
    /// assert_eq!((parts[0].dim(), parts[1].dim()), (&IxDyn(&[2, 2]), &IxDyn(&[2])));
    /// parts[0].fill(9);
    /// parts[1][[1]] = 8;
    /// let columns = table.view_mut().multi_slice_move::<_, Ix1>(&[s![.., 0], s![.., 1]])?;
    /// assert_eq!((columns[0].dim(), columns[1][1]), (&Ix1(2), 8));
    /// // One slice leaves two axes; two share (0,2).
    /// let error = |kind| Some(from_kind(kind).into());
    /// assert_eq!(table.view_mut().multi_slice_move::<_, Ix1>(&slices).err(), error(ErrorKind::IncompatibleShape));
    /// let shared = table.view_mut().multi_slice_move::<_, Ix2>(&[s![0..1, ..], s![.., 2..]]);
    /// assert_eq!(shared.err(), error(ErrorKind::Unsupported));
    /// assert_eq!(items, [9, 1, 9, 9, 8, 9]);
    /// # Ok(())
    /// # }
    /// ```
    ///
    /// <details><summary>Contract (proved)</summary>
    ///
    /// ```text
    /// ensures fault: IsFaultOfSlices E.NDIM (array_of self.entry).view.shape
    ///     (map S.list slices.now) (shape_fault result)
    /// ensures memory: slices.now ≡ [] → IsOk result
    /// ensures parts: IfOk result (λ parts. map array_of parts.items ≡
    ///     map (slice_array (array_of self.entry).items (array_of self.entry).view)
    ///     (map S.list slices.now))
    /// ```
    /// [How to read it](crate::contracts)
    /// </details>
    #[inline]
    pub fn multi_slice_move<S: SliceElems, E: Lengths>(
        self,
        slices: &[S],
    ) -> Result<Vec<ArrayViewMut<'a, T, E>>, LayoutError> {
        let ArrayViewMut { cells, view } = self;
        check_apart(E::NDIM, &view, slices)?;
        parts_of_slices(cells, &view, slices)
    }
}
