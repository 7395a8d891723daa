// Made by `rust/erase` of `crates/nd_slice/src/intersecting_pair.rt`: edit that.
//! Two of many slice arguments that share an index of a shape.

use crate::nd_base::{Lengths, ShapeError};
use crate::nd_slice::elems::SliceElems;
use crate::nd_slice::fit::Fit;
use crate::nd_slice::intersect::elems_intersect;
use crate::nd_slice::slice_errors::check_elems;
use crate::nd_slice::slices_in_order::{
    Direction, FromFirst, FromLast, axis_in_order, begins_past, elems_at, end_in_order,
};
use crate::nd_slice::slices_in_rows::lie_in_rows;

/// Checks that each slice fits a shape. Errors: those of `check_elems` for the first slice with one.
///
/// <details><summary>Contract (proved)</summary>
///
/// ```text
/// ensures result_err result ≡ slices_fault fit shape.now (map S.list slices.now)
/// ```
/// [How to read it](crate::contracts)
/// </details>
#[inline]
pub(crate) fn check_slices<S: SliceElems>(shape: &[usize], slices: &[S], fit: Fit) -> Result<(), ShapeError> {
    for slice in slices {
        check_elems(shape, slice.elems(), fit)?;
    }
    Ok(())
}

/// The first slice that is read after one and shares an index with it. Where they are in order along an axis, the first that
/// begins there past the slice ends the comparison: none that is read after it begins earlier.
///
/// <details><summary>Contract (proved)</summary>
///
/// ```text
/// requires lens_fit: All (λ len. len < 2 ^ 63) shape.now
/// requires fit: slices_fault fit shape.now (map S.list slices.now) ≡ None
/// requires in_order: IfSome in_order (λ axis. AreInOrder fit shape.now axis (map S.list slices.now) R.backwards)
/// requires turn: turn < length slices.now
/// ensures none: IfNone result ((later : ℕ) → turn < later → later < length slices.now →
///     AreApart fit shape.now (slice_at (map S.list slices.now) R.backwards turn)
///     (slice_at (map S.list slices.now) R.backwards later))
/// ensures some: IfSome result (λ later. (turn < later) × (later < length slices.now)
///     × Intersect fit shape.now (slice_at (map S.list slices.now) R.backwards turn)
///     (slice_at (map S.list slices.now) R.backwards later))
/// ```
/// [How to read it](crate::contracts)
/// </details>
#[inline]
fn intersects_later<S: SliceElems, R: Direction>(
    shape: &[usize],
    slices: &[S],
    in_order: Option<usize>,
    turn: usize,
    fit: Fit,
) -> Option<usize> {
    let slice = elems_at::<S, R>(slices, turn);
    let end = end_in_order(shape, in_order, slice, fit);
    for later in turn + 1..slices.len() {
        let other = elems_at::<S, R>(slices, later);
        if begins_past(shape, end, other, fit) {
            return None;
        }
        if elems_intersect(shape, slice, other, fit) {
            return Some(later);
        }
    }
    None
}

/// The positions of two slices that share an index, the less first. The caller says on which axis the slices are in order.
///
/// <details><summary>Contract (proved)</summary>
///
/// ```text
/// requires lens_fit: All (λ len. len < 2 ^ 63) shape.now
/// requires fit: slices_fault fit shape.now (map S.list slices.now) ≡ None
/// requires in_order: IfSome in_order (λ axis. AreInOrder fit shape.now axis (map S.list slices.now) R.backwards)
/// ensures IsIntersection fit shape.now (map S.list slices.now) result
/// ```
/// [How to read it](crate::contracts)
/// </details>
#[inline]
fn first_in_direction<S: SliceElems, R: Direction>(
    shape: &[usize],
    slices: &[S],
    in_order: Option<usize>,
    fit: Fit,
) -> Option<(usize, usize)> {
    for turn in 0..slices.len() {
        if let Some(later) = intersects_later::<S, R>(shape, slices, in_order, turn, fit) {
            let one = R::position(slices.len(), turn);
            let other = R::position(slices.len(), later);
            return Some((one.min(other), one.max(other)));
        }
    }
    None
}

/// The positions of two slices that share an index, the less first: what `first_intersection` returns, of lists that
/// were checked before. The project's own.
///
/// # Conditions
///
/// The caller ensures that each fits, and that each length is below 2^63. Otherwise this call or a later one panics or
/// returns unspecified values.
///
/// <details><summary>Contract (proved)</summary>
///
/// ```text
/// requires lens_fit: All (λ len. len < 2 ^ 63) shape.now
/// requires fit: slices_fault fit shape.now (map S.list slices.now) ≡ None
/// ensures IsIntersection fit shape.now (map S.list slices.now) result
/// ```
/// [How to read it](crate::contracts)
/// </details>
#[inline]
#[must_use]
pub fn first_elems_intersection<S: SliceElems>(shape: &[usize], slices: &[S], fit: Fit) -> Option<(usize, usize)> {
    if lie_in_rows::<S, FromFirst>(shape, slices, fit) || lie_in_rows::<S, FromLast>(shape, slices, fit) {
        return None;
    }
    let in_order = axis_in_order::<S, FromFirst>(shape, slices, fit);
    if in_order.is_none() {
        let from_last = axis_in_order::<S, FromLast>(shape, slices, fit);
        if from_last.is_some() {
            return first_in_direction::<S, FromLast>(shape, slices, from_last, fit);
        }
    }
    first_in_direction::<S, FromFirst>(shape, slices, in_order, fit)
}

/// Two of many slice arguments on a shape that share an index: their positions in the list, the
/// less first. Where several pairs do, it is any of them. `None` if and only if no two share one.
///
/// Takes no memory. Two arguments take time as in `slices_intersect`. `k` arguments that begin in
/// their order along an axis, or in the reverse order, take time in proportion to `k` where each
/// overlaps few others there: an argument is compared only with those that begin before its last pick. So
/// it is for the rows of an array or its tiles, from the first to the last or from the last to the
/// first. Arguments in no order, or with new axes, are compared pair by pair: `k * (k - 1) / 2`.
/// `first_intersection_sorted` takes memory, and less time for those in no order.
///
/// `..2,..`, `3..,..` and `1,5` on `[4,9]`: `Some((0, 2))`, by (1,5). In place of the panic of
/// ndarray's `multi_slice_mut`.
///
/// # Errors
///
/// Those of `check_slice` for the first argument with one. All are checked before any two are
/// compared.
///
/// # Conditions
///
/// The caller ensures that each length is below 2^63. Otherwise this call or a later one panics or returns unspecified
/// values.
///
/// <details><summary>Contract (proved)</summary>
///
/// ```text
/// requires All (λ len. len < 2 ^ 63) (D.list dim.now)
/// ensures fault: result_err result ≡ slices_fault fit (D.list dim.now) (map S.list slices.now)
/// ensures intersection: IfOk result (λ found. IsIntersection fit (D.list dim.now) (map S.list slices.now) found)
/// ```
/// [How to read it](crate::contracts)
/// </details>
#[inline]
pub fn first_intersection<D: Lengths, S: SliceElems>(
    dim: &D,
    slices: &[S],
    fit: Fit,
) -> Result<Option<(usize, usize)>, ShapeError> {
    let shape = dim.slice();
    check_slices(shape, slices, fit)?;
    Ok(first_elems_intersection(shape, slices, fit))
}
