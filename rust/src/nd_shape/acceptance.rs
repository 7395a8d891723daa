// Made by `rust/erase` of `crates/nd_shape/src/acceptance.rt`: edit that.
//! Tests of a shape and its strides against the type limits and the data.

use crate::nd_base::{ErrorKind, Lengths, ShapeError, from_kind, signed};
use crate::nd_shape::no_alias::has_overlap;
use crate::nd_shape::shape_builder::Strides;
use crate::nd_shape::size_limits::{checked_nonzero_size, checked_span, multiply};

/// How a layout is going to be used: to read, or as the owner of its elements. ndarray's
/// `CanIndexCheckMode`.
#[derive(Clone, Copy, PartialEq, Debug, Eq)]
pub enum CanIndexCheckMode {
    /// Elements are owned or written, and no two indices may alias. What the docs call owned mode.
    OwnedMutable,
    /// Elements are only read.
    ReadOnly,
}

/// The span of a layout, where the product of the lengths that are not 0, the span, and the span
/// in bytes are each at most the greatest `isize`.
///
/// <details><summary>Contract (proved)</summary>
///
/// ```text
/// ensures SomeIff result
///     ((nonzero_size shape.now ≤ limit)
///     × (span shape.now (all_signed strides.now) ≤ limit)
///     × (span shape.now (all_signed strides.now) * elem_size ≤ limit))
///     (span shape.now (all_signed strides.now))
/// ```
/// [How to read it](crate::contracts)
/// </details>
#[inline(always)]
fn span_within_limits(elem_size: usize, shape: &[usize], strides: &[usize]) -> Option<usize> {
    checked_nonzero_size(shape)?;
    let span = checked_span(shape, strides)?;
    multiply(span, elem_size)?;
    Some(span)
}

/// The span of a layout: the distance in elements from its lowest place to its highest one.
///
/// `shape` and `strides` are one number for each axis, strides in elements and with their sign
/// (`signed`); an element has `elem_size` bytes. A layout with a span is valid, as `low_span`,
/// `has_overlap` and `merge_fitting` ask of theirs.
///
/// Takes time in proportion to the count of axes.
///
/// `[2,3]` with the strides `[-3,1]`, of 4 bytes each: 5. The rule over lists of ndarray's
/// `max_abs_offset_check_overflow`.
///
/// # Errors
///
/// `IncompatibleLayout` where there are not as many strides as lengths; then `Overflow` where the
/// product of the lengths that are not 0, the span, or the span in bytes is greater than
/// `isize::MAX`.
///
/// <details><summary>Contract (proved)</summary>
///
/// ```text
/// ensures fault: result_err result ≡ size_fault elem_size shape.now (all_signed strides.now)
/// ensures span: IfOk result (λ n. n ≡ span shape.now (all_signed strides.now))
/// ensures valid: OnOk result (IsValidLayout shape.now (all_signed strides.now))
/// ```
/// [How to read it](crate::contracts)
/// </details>
#[inline(always)]
pub fn span_of_lengths(elem_size: usize, shape: &[usize], strides: &[usize]) -> Result<usize, ShapeError> {
    if shape.len() != strides.len() {
        return Err(from_kind(ErrorKind::IncompatibleLayout));
    }
    span_within_limits(elem_size, shape, strides).ok_or(from_kind(ErrorKind::Overflow))
}

/// Returns `Ok` if and only if a layout satisfies the bounds rule over data of `len` elements and,
/// in owned mode, the no-alias rule.
///
/// `shape` and `strides` are one number for each axis, strides in elements and with their sign
/// (`signed`); an element has `elem_size` bytes. The lowest place of the layout is the first
/// element of the data. Each index of an accepted layout is in bounds, and in owned mode no two
/// indices alias.
///
/// Takes time in proportion to the count of axes; in owned mode of its square at most.
///
/// `[2,2]` with the strides `[3,1]`: over 4 elements `OutOfBounds`, over 5 accepted. The rule over
/// lists of ndarray's `can_index_slice`.
///
/// # Errors
///
/// Those of `span_of_lengths`; then `OutOfBounds` where the span is not less than `len`, or where a
/// layout without an index has a span greater than `len`; then, in owned mode, `Unsupported` where
/// two indices may alias (`has_overlap`).
///
/// <details><summary>Contract (proved)</summary>
///
/// ```text
/// ensures fault: result_err result ≡ acceptance elem_size len mode shape.now (all_signed strides.now)
/// ensures valid: OnOk result (IsValidLayout shape.now (all_signed strides.now))
/// ensures in_bounds: OnOk result (LiesInBounds len
///     (low_span shape.now (all_signed strides.now))
///     shape.now
///     (all_signed strides.now))
/// ensures distinct: mode ≡ CanIndexCheckMode.OwnedMutable →
///     OnOk result (HasDistinctOffsets shape.now (all_signed strides.now))
/// ```
/// [How to read it](crate::contracts)
/// </details>
#[inline(always)]
pub fn accept(
    elem_size: usize,
    len: usize,
    shape: &[usize],
    strides: &[usize],
    mode: CanIndexCheckMode,
) -> Result<(), ShapeError> {
    let span = span_of_lengths(elem_size, shape, strides)?;
    let is_empty = shape.contains(&0);
    let leaves_data = if is_empty { len < span } else { len <= span };
    if leaves_data {
        return Err(from_kind(ErrorKind::OutOfBounds));
    }
    if mode == CanIndexCheckMode::OwnedMutable && has_overlap(shape, strides) {
        return Err(from_kind(ErrorKind::Unsupported));
    }
    Ok(())
}

/// The number of indices of a shape: the product of its lengths, which is 0 where a length is 0.
///
/// Takes time in proportion to the count of axes.
///
/// `[2,0,3]`: 0. ndarray's `size_of_shape_checked`.
///
/// # Errors
///
/// `Overflow` where the product of the lengths that are not 0 is greater than `isize::MAX`.
///
/// <details><summary>Contract (proved)</summary>
///
/// ```text
/// ensures ok: IfOk result (λ n. n ≡ size (D.list dim.now))
/// ensures fault: result_err result ≡ (if nat_lt limit (nonzero_size (D.list dim.now)) then Some Overflow else None)
/// ```
/// [How to read it](crate::contracts)
/// </details>
#[inline]
pub fn size_of_shape_checked<D: Lengths>(dim: &D) -> Result<usize, ShapeError> {
    let shape = dim.slice();
    let size = checked_nonzero_size(shape).ok_or(from_kind(ErrorKind::Overflow))?;
    Ok(if shape.contains(&0) { 0 } else { size })
}

/// The span of a layout, as `span_of_lengths` returns it, with the same errors; `dim` has the
/// lengths and `strides` the strides.
///
/// Takes time in proportion to the count of axes.
///
/// `[2,3]` with the strides `[-3,1]`, of 4 bytes each: 5. ndarray's
/// `max_abs_offset_check_overflow`.
///
/// <details><summary>Contract (proved)</summary>
///
/// ```text
/// ensures fault: result_err result ≡ size_fault elem_size (D.list dim.now) (all_signed (D.list strides.now))
/// ensures span: IfOk result (λ n. n ≡ span (D.list dim.now) (all_signed (D.list strides.now)))
/// ensures valid: OnOk result (IsValidLayout (D.list dim.now) (all_signed (D.list strides.now)))
/// ```
/// [How to read it](crate::contracts)
/// </details>
#[inline]
pub fn max_abs_offset_check_overflow<D: Lengths>(elem_size: usize, dim: &D, strides: &D) -> Result<usize, ShapeError> {
    span_of_lengths(elem_size, dim.slice(), strides.slice())
}

/// Returns `Ok` if and only if a layout is accepted, as `accept` does, with the same errors; `dim`
/// has the lengths and `strides` the strides.
///
/// Takes time in proportion to the count of axes; in owned mode of its square at most.
///
/// `[2,2]` with the strides `[3,1]`: over 4 elements `OutOfBounds`, over 5 accepted. ndarray's
/// `can_index_slice`.
///
/// <details><summary>Contract (proved)</summary>
///
/// ```text
/// ensures fault: result_err result ≡ acceptance elem_size len mode (D.list dim.now) (all_signed (D.list strides.now))
/// ensures valid: OnOk result (IsValidLayout (D.list dim.now) (all_signed (D.list strides.now)))
/// ensures in_bounds: OnOk result
///     (LiesInBounds len
///     (low_span (D.list dim.now) (all_signed (D.list strides.now)))
///     (D.list dim.now)
///     (all_signed (D.list strides.now)))
/// ensures distinct: mode ≡ CanIndexCheckMode.OwnedMutable → OnOk result
///     (HasDistinctOffsets (D.list dim.now) (all_signed (D.list strides.now)))
/// ```
/// [How to read it](crate::contracts)
/// </details>
#[inline(always)]
pub fn can_index_slice<D: Lengths>(
    elem_size: usize,
    len: usize,
    dim: &D,
    strides: &D,
    mode: CanIndexCheckMode,
) -> Result<(), ShapeError> {
    accept(elem_size, len, dim.slice(), strides.slice(), mode)
}

/// Returns `Ok` if and only if a shape, by its own strides in row-major or in column-major order,
/// fits data of `len` elements.
///
/// Each index of an accepted shape is in bounds, and no two of them alias. An accepted shape that
/// has an index satisfies the no-alias rule of owned mode in either order (`SatisfiesNoAliasRule`).
///
/// Takes time in proportion to the count of axes.
///
/// `[2,3]`: over 6 elements accepted, over 5 `OutOfBounds`. ndarray's `can_index_slice_not_custom`.
///
/// # Errors
///
/// Those of `size_of_shape_checked`; then `OutOfBounds` where there are more indices than elements.
///
/// <details><summary>Contract (proved)</summary>
///
/// ```text
/// ensures fault: result_err result ≡ acceptance_of_standard len (D.list dim.now)
/// ensures valid: OnOk result ((order : Order) →
///     IsValidLayout (D.list dim.now) (all_signed (standard_strides order (D.list dim.now))))
/// ensures in_bounds: OnOk result ((order : Order) →
///     LiesInBounds len 0 (D.list dim.now) (all_signed (standard_strides order (D.list dim.now))))
/// ensures rule: is_empty (D.list dim.now) ≡ false → OnOk result ((order : Order) →
///     SatisfiesNoAliasRule (D.list dim.now) (all_signed (standard_strides order (D.list dim.now))))
/// ensures distinct: OnOk result ((order : Order) →
///     HasDistinctOffsets (D.list dim.now)
///     (all_signed (standard_strides order (D.list dim.now))))
/// ```
/// [How to read it](crate::contracts)
/// </details>
#[inline]
pub fn can_index_slice_not_custom<D: Lengths>(len: usize, dim: &D) -> Result<(), ShapeError> {
    if len < size_of_shape_checked(dim)? {
        return Err(from_kind(ErrorKind::OutOfBounds));
    }
    Ok(())
}

/// Returns `Ok` if and only if a shape, by its own strides or by given ones, is accepted over data
/// of `len` elements of `elem_size` bytes.
///
/// Each index of an accepted layout is in bounds, and in owned mode no two indices alias.
///
/// Takes time in proportion to the count of axes; in owned mode of its square at most.
///
/// `[2,3]` over 6 elements in owned mode: `Strides::F` accepted, the strides `[1,1]` `Unsupported`.
/// ndarray's `can_index_slice_with_strides`.
///
/// # Errors
///
/// Those of `can_index_slice` where strides are given; else those of `can_index_slice_not_custom`,
/// in either mode.
///
/// <details><summary>Contract (proved)</summary>
///
/// ```text
/// ensures fault: result_err result ≡ acceptance_by_strides D.list elem_size len mode (D.list dim.now) strides.now
/// ensures valid: OnOk result
///     (IsValidLayout
///     (D.list dim.now)
///     (all_signed (strides_list D.list (D.list dim.now) strides.now)))
/// ensures in_bounds: OnOk result
///     (LiesInBounds len
///     (low_span (D.list dim.now) (all_signed (strides_list D.list (D.list dim.now) strides.now)))
///     (D.list dim.now)
///     (all_signed (strides_list D.list (D.list dim.now) strides.now)))
/// ensures distinct: mode ≡ CanIndexCheckMode.OwnedMutable → OnOk result
///     (HasDistinctOffsets
///     (D.list dim.now)
///     (all_signed (strides_list D.list (D.list dim.now) strides.now)))
/// ```
/// [How to read it](crate::contracts)
/// </details>
#[inline]
pub fn can_index_slice_with_strides<D: Lengths>(
    elem_size: usize,
    len: usize,
    dim: &D,
    strides: &Strides<D>,
    mode: CanIndexCheckMode,
) -> Result<(), ShapeError> {
    match strides {
        Strides::C | Strides::F => can_index_slice_not_custom(len, dim),
        Strides::Custom(strides) => can_index_slice(elem_size, len, dim, strides, mode),
    }
}

/// Whether a stride is negative.
///
/// <details><summary>Contract (proved)</summary>
///
/// ```text
/// ensures result ≡ is_negative (signed_reading stride)
/// ```
/// [How to read it](crate::contracts)
/// </details>
#[inline(always)]
fn is_negative_stride(stride: usize) -> bool {
    signed(stride) < 0
}

/// Whether some stride is negative.
///
/// <details><summary>Contract (proved)</summary>
///
/// ```text
/// ensures result ≡ list_any (λ stride. is_negative (signed_reading stride)) strides.now
/// ```
/// [How to read it](crate::contracts)
/// </details>
#[inline(always)]
fn some_negative(strides: &[usize]) -> bool {
    strides.iter().any(|stride| is_negative_stride(*stride))
}

/// Returns `Ok` if and only if no stride is negative.
///
/// Takes time in proportion to the count of axes.
///
/// `[3,-1]`: `Unsupported`. ndarray's `strides_non_negative`.
///
/// # Errors
///
/// `Unsupported` where one is negative.
///
/// <details><summary>Contract (proved)</summary>
///
/// ```text
/// ensures result_err result ≡ sign_fault (all_signed (D.list strides.now))
/// ```
/// [How to read it](crate::contracts)
/// </details>
#[inline]
pub fn strides_non_negative<D: Lengths>(strides: &D) -> Result<(), ShapeError> {
    if some_negative(strides.slice()) {
        return Err(from_kind(ErrorKind::Unsupported));
    }
    Ok(())
}
