// Made by `rust/erase` of `crates/ndarray_layout/src/strided/slicing.rt`: edit that.
//! Slices of a view, and the shape and the strides that a slice argument leaves.

use crate::nd_base::{ErrorKind, INLINE_AXES, LayoutError, Lengths, ShapeError, from_kind, stride_offset};
use crate::nd_slice::{
    Fit, Slice, SliceElems, SliceInfoElem, check_elems, coordinate_of, in_ndim_of, out_ndim_of, resolve_slice,
};
use crate::ndarray_layout::strided::Strided;
use crate::ndarray_layout::strided::places::offset_place;

/// Whether a type that may fix a count of axes has so many.
///
/// <details><summary>Contract (proved)</summary>
///
/// ```text
/// ensures result ≡ option_map_or (λ count. count == ndim) fixed true
/// ```
/// [How to read it](crate::contracts)
/// </details>
#[inline(always)]
pub(crate) fn allows(fixed: Option<usize>, ndim: usize) -> bool {
    match fixed {
        Some(count) => count == ndim,
        None => true,
    }
}

/// Whether a slice argument is for as many axes as a shape has, and leaves as many as a type fixes, if
/// it fixes a count.
///
/// <details><summary>Contract (proved)</summary>
///
/// ```text
/// ensures IsTrue result ↔ HasCounts (Some (length shape.now)) fixed elems.now
/// ```
/// [How to read it](crate::contracts)
/// </details>
#[inline(always)]
fn has_counts(fixed: Option<usize>, shape: &[usize], elems: &[SliceInfoElem]) -> bool {
    in_ndim_of(elems) == shape.len() && allows(fixed, out_ndim_of(elems))
}

/// Whether a list of `ndim` lengths needs memory of its own: one of more than four does, unless its type
/// fixes their count.
///
/// <details><summary>Contract (proved)</summary>
///
/// ```text
/// ensures IsFalse result ↔ NeedsNoMemory fixed ndim
/// ```
/// [How to read it](crate::contracts)
/// </details>
#[inline(always)]
fn needs_memory(fixed: Option<usize>, ndim: usize) -> bool {
    fixed.is_none() && ndim > INLINE_AXES
}

/// Slices one axis: the length and the stride that are left, and how many elements the first pick
/// lies after the first one. Errors: those of `resolve_slice`.
///
/// <details><summary>Contract (proved)</summary>
///
/// ```text
/// requires len_fits: len < 2 ^ 63
/// requires span_fits: reach len (signed_reading stride) ≤ limit
/// ensures fault: result_err result ≡ slice_fault fit len slice
/// ensures count: IfOk result (λ (count, new_stride, offset). count ≡ length (picks fit len slice))
/// ensures stride: IfOk result (λ (count, new_stride, offset). signed_reading new_stride ≡
///     picked_stride (length (picks fit len slice)) (signed_reading stride) slice.step)
/// ensures offset: IfOk result (λ (count, new_stride, offset).
///     offset ≡ first_offset (picks fit len slice) (signed_reading stride))
/// ```
/// [How to read it](crate::contracts)
/// </details>
#[inline(always)]
fn slice_axis(len: usize, stride: usize, slice: Slice, fit: Fit) -> Result<(usize, usize, isize), ShapeError> {
    let picks = resolve_slice(len, slice, fit)?;
    let offset = picks.offset(stride);
    Ok((picks.count(), picks.stride(stride), offset))
}

/// Writes the lengths and the strides that an argument for as many axes as there are leaves, one
/// for each element but an index, into lists with as many numbers. Returns how many elements the
/// first index that is left lies after the first index of the shape.
///
/// Errors: that of the first element with one. Then the lists hold any numbers.
///
/// <details><summary>Contract (proved)</summary>
///
/// ```text
/// requires valid: IsValidLayout shape.now (all_signed strides.now)
/// requires counts: in_count elems.now ≡ length shape.now
/// requires shape_room: length new_shape.old ≡ out_count elems.now
/// requires strides_room: length new_strides.old ≡ out_count elems.now
/// ensures fault: result_err result ≡ first_fault fit shape.now elems.now
/// ensures shape: OnOk result (new_shape.new ≡ sliced_shape fit elems.now shape.now)
/// ensures strides: OnOk result (all_signed new_strides.new ≡
///     sliced_strides fit elems.now shape.now (all_signed strides.now))
/// ensures offset: IfOk result (λ offset. offset ≡ sliced_offset fit elems.now shape.now (all_signed strides.now))
/// ```
/// [How to read it](crate::contracts)
/// </details>
#[inline(always)]
fn write_axes(
    elems: &[SliceInfoElem],
    shape: &[usize],
    strides: &[usize],
    new_shape: &mut [usize],
    new_strides: &mut [usize],
    fit: Fit,
) -> Result<isize, ShapeError> {
    let mut old_axis = 0usize;
    let mut new_axis = 0usize;
    let mut offset = 0isize;
    for elem in elems {
        match *elem {
            SliceInfoElem::Slice { start, end, step } => {
                let slice = Slice { start, end, step };
                let (old_len, old_stride) = (shape[old_axis], strides[old_axis]);
                let (len, stride, moved) = slice_axis(old_len, old_stride, slice, fit)?;
                new_shape[new_axis] = len;
                new_strides[new_axis] = stride;
                offset += moved;
                old_axis += 1;
                new_axis += 1;
            }
            SliceInfoElem::Index(index) => {
                let coordinate = coordinate_of(shape[old_axis], index)?;
                offset += stride_offset(coordinate, strides[old_axis]);
                old_axis += 1;
            }
            SliceInfoElem::NewAxis => {
                new_shape[new_axis] = 1;
                new_strides[new_axis] = 0;
                new_axis += 1;
            }
        }
    }
    Ok(offset)
}

/// Checks the elements of an argument for as many axes as there are, where the lengths that it
/// leaves may take memory, since errors of elements come before out of memory.
///
/// <details><summary>Contract (proved)</summary>
///
/// ```text
/// requires counts: in_count elems.now ≡ length shape.now
/// ensures fault: OnErr result (result_err result ≡ first_fault fit shape.now elems.now)
/// ensures passed: OnOk result (first_fault fit shape.now elems.now ≡ None ⊎ NeedsNoMemory fixed ndim)
/// ```
/// [How to read it](crate::contracts)
/// </details>
#[inline(always)]
fn check_before_memory(
    fixed: Option<usize>,
    ndim: usize,
    elems: &[SliceInfoElem],
    shape: &[usize],
    fit: Fit,
) -> Result<(), ShapeError> {
    if needs_memory(fixed, ndim) {
        check_elems(shape, elems, fit)?;
    }
    Ok(())
}

/// The lengths and the strides that an argument leaves, and how many elements the first index that is left lies after
/// the first index of the shape. Errors: those of `Strided::slice`.
///
/// # Conditions
///
/// The caller ensures that the layout is valid. Otherwise this call or a later one panics or returns unspecified
/// values.
///
/// <details><summary>Contract (proved)</summary>
///
/// ```text
/// requires IsValidLayout shape.now (all_signed strides.now)
/// ensures fault: shape_fault result ≡ view_slice_fault fit E.NDIM shape.now elems.now
/// ensures memory: view_slice_fault fit E.NDIM shape.now elems.now ≡ None →
///     NeedsNoMemory E.NDIM (out_count elems.now) → IsOk result
/// ensures shape: IfOk result (λ (dim, new_strides, offset). E.list dim ≡ sliced_shape fit elems.now shape.now)
/// ensures strides: IfOk result (λ (dim, new_strides, offset). all_signed (E.list new_strides) ≡
///     sliced_strides fit elems.now shape.now (all_signed strides.now))
/// ensures offset: IfOk result (λ (dim, new_strides, offset).
///     offset ≡ sliced_offset fit elems.now shape.now (all_signed strides.now))
/// ```
/// [How to read it](crate::contracts)
/// </details>
#[inline(always)]
fn sliced_axes<E: Lengths>(
    elems: &[SliceInfoElem],
    shape: &[usize],
    strides: &[usize],
    fit: Fit,
) -> Result<(E, E, isize), LayoutError> {
    if !has_counts(E::NDIM, shape, elems) {
        return Err(LayoutError::Shape(from_kind(ErrorKind::IncompatibleShape)));
    }
    let ndim = out_ndim_of(elems);
    check_before_memory(E::NDIM, ndim, elems, shape, fit)?;
    let mut dim = E::zeros(ndim)?;
    let mut new_strides = E::zeros(ndim)?;
    let offset = write_axes(elems, shape, strides, dim.slice_mut(), new_strides.slice_mut(), fit)?;
    Ok((dim, new_strides, offset))
}

impl<D: Lengths> Strided<D> {
    /// The view of the same data that a slice argument leaves.
    ///
    /// A range with a step keeps its axis, an index takes one coordinate and drops the axis, and
    /// `NewAxis` adds an axis of length 1. `fit` says what happens to a bound past its axis: an
    /// error, or the nearest bound. Each index that is left has the place of the index that it
    /// stands for.
    ///
    /// Takes time in proportion to the slices and indices of the argument.
    ///
    /// `1..;-2` of `[4]` with the stride `[3]` from 5: `[2]`, `[-6]` from 14. ndarray's `slice` and
    /// `slice_collapse`.
    ///
    /// # Errors
    ///
    /// `IncompatibleShape` where the argument is for more axes than there are or for fewer, or
    /// leaves more or fewer than the type `E` fixes; then that of the first element with one:
    /// `OutOfBounds` for an index that is no coordinate of its axis, or for a bound that means no
    /// number from 0 to the length (never with `Fit::Clamp`), `Unsupported` for the step 0; then
    /// out of memory, never where `E` fixes the count of axes or at most 4 are left.
    ///
    /// # Examples
    ///
    /// ```
    /// use ndarray_layout::{CanIndexCheckMode, Fit, Ix1, LayoutError, SliceInfoElem, Strided, unsigned};
    ///
    /// # fn main() -> Result<(), LayoutError> {
    /// let view = Strided::from_parts(5, Ix1(4), Ix1(3), 1, 15, CanIndexCheckMode::ReadOnly)?;
    /// let elems = [SliceInfoElem::Slice { start: 1, end: None, step: -2 }];
    /// let part: Strided<Ix1> = view.slice(&elems, Fit::Strict)?;
    /// assert_eq!((part.start(), part.dim(), part.strides()), (14, &Ix1(2), &Ix1(unsigned(-6))));
    /// let elems = [SliceInfoElem::Slice { start: 1, end: Some(9), step: 1 }];
    /// assert!(view.slice::<Ix1, _>(&elems, Fit::Strict).is_err());
    /// # Ok(())
    /// # }
    /// ```
    ///
    /// <details><summary>Contract (proved)</summary>
    ///
    /// ```text
    /// ensures fault: shape_fault result ≡ view_slice_fault fit E.NDIM self.now.shape (S.list slices.now)
    /// ensures memory: view_slice_fault fit E.NDIM self.now.shape (S.list slices.now) ≡ None →
    ///     NeedsNoMemory E.NDIM (out_count (S.list slices.now)) → IsOk result
    /// ensures sliced: IfOk result (λ v. v ≡ slice_of fit (S.list slices.now) self.now)
    /// ensures kept: IfOk result (λ v. Descends (selected fit (S.list slices.now) self.now.shape) self.now v)
    /// ```
    /// [How to read it](crate::contracts)
    /// </details>
    #[inline]
    pub fn slice<E: Lengths, S: SliceElems>(&self, slices: &S, fit: Fit) -> Result<Strided<E>, LayoutError> {
        let (shape, strides) = (self.dim.slice(), self.strides.slice());
        let (dim, strides, offset) = sliced_axes(slices.elems(), shape, strides, fit)?;
        let start = offset_place(self.start, offset);
        Ok(Strided { start, dim, strides })
    }
}
