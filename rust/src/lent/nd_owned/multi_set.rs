// Made by `rust/erase` of `crates/nd_owned/src/multi_set.rt`: edit that.
//! Items that are to be written at slices of a view: the error of such a list, the places, and the writes.

use crate::lent::nd_owned::picked_view::PickedView;
use crate::memory::prelude::{FallibleVec, Vec};
use crate::ndarray_layout::{
    ErrorKind, Fit, LayoutError, Lengths, ShapeError, SliceInfoElem, Strided, any_elems_intersection, from_kind,
};

/// A slice, and the items for its places.
pub(crate) type SliceItems<T> = (Vec<SliceInfoElem>, Vec<T>);

/// What a slice picks of a view, and the items for its places.
pub(crate) struct PickedItems<'a, T: Copy> {
    view: PickedView,
    items: &'a [T],
}

/// Whether there are as many items for each slice as it picks. Fails for the first slice that doesn't fit the shape of the
/// view, with its error.
///
/// <details><summary>Contract (proved)</summary>
///
/// ```text
/// ensures fault: result_err result ≡ slices_fault view.now.shape (map write_of writes.now)
/// ensures counts: IfOk result (λ have. have ≡ list_all (has_count view.now.shape) (map write_of writes.now))
/// ```
/// [How to read it](crate::contracts)
/// </details>
#[inline]
fn have_counts<T: Copy, D: Lengths>(view: &Strided<D>, writes: &[SliceItems<T>]) -> Result<bool, ShapeError> {
    let mut have = true;
    for (slice, items) in writes {
        if view.picked(slice, Fit::Strict)? != items.len() {
            have = false;
        }
    }
    Ok(have)
}

/// Checks that each slice fits the shape of the view, and then that there are as many items for each as it picks.
///
/// <details><summary>Contract (proved)</summary>
///
/// ```text
/// ensures result_err result ≡ counts_fault view.now.shape (map write_of writes.now)
/// ```
/// [How to read it](crate::contracts)
/// </details>
#[inline]
pub(crate) fn check_counts<T: Copy, D: Lengths>(view: &Strided<D>, writes: &[SliceItems<T>]) -> Result<(), ShapeError> {
    if have_counts(view, writes)? { Ok(()) } else { Err(from_kind(ErrorKind::IncompatibleShape)) }
}

/// Checks that no two slices share an index. Each fits the shape of the view, so none is checked again.
///
/// <details><summary>Contract (proved)</summary>
///
/// ```text
/// requires slices_fault view.now.shape (map write_of writes.now) ≡ None
/// ensures IsIntersectionFault view.now.shape (map write_of writes.now) (result_err result)
/// ```
/// [How to read it](crate::contracts)
/// </details>
#[inline]
pub(crate) fn check_apart<T: Copy, D: Lengths>(view: &Strided<D>, writes: &[SliceItems<T>]) -> Result<(), ShapeError> {
    match any_elems_intersection(view.dim().slice(), writes, Fit::Strict) {
        Some(_) => Err(from_kind(ErrorKind::Unsupported)),
        None => Ok(()),
    }
}

/// The part of the view that the slice of one write picks, where there are as many items for it. Errors: that of the slice,
/// then `IncompatibleShape` for another count, then out of memory.
///
/// <details><summary>Contract (proved)</summary>
///
/// ```text
/// ensures fault: shape_fault result ≡ counts_fault view.now.shape (write_of write.now ∷ [])
/// ensures part: IfOk result (λ part. view_of_picked part ≡ slice_of Strict write.now.0.items view.now)
/// ensures count: IfOk result (λ part. size (view_of_picked part).shape ≡ length write.now.1.items)
/// ensures in_bounds: IfOk result (λ part. (len : ℕ) → LiesWithin len view.now → LiesWithin len (view_of_picked part))
/// ```
/// [How to read it](crate::contracts)
/// </details>
#[inline]
pub(crate) fn picked_by_write<T: Copy, D: Lengths>(
    view: &Strided<D>,
    write: &SliceItems<T>,
) -> Result<PickedView, LayoutError> {
    let (slice, items) = write;
    let fault = match PickedView::new(view, slice) {
        Ok(part) => {
            if part.size() == items.len() {
                return Ok(part);
            }
            return Err(LayoutError::Shape(from_kind(ErrorKind::IncompatibleShape)));
        }
        Err(fault) => fault,
    };
    // The error of the slice, or out of memory, before which comes that of the count.
    if view.picked(slice, Fit::Strict)? == items.len() {
        Err(fault)
    } else {
        Err(LayoutError::Shape(from_kind(ErrorKind::IncompatibleShape)))
    }
}

/// The parts of the view that the slices pick, without those that pick nothing, and the items for them.
///
/// <details><summary>Contract (proved)</summary>
///
/// ```text
/// requires counts_fault view.now.shape (map write_of writes.now) ≡ None
/// ensures fault: shape_fault result ≡ None
/// ensures memory: HaveNoItems (map write_of writes.now) → IsOk result
/// ensures places: IfOk result (λ v. flat_map (λ one. picked_places one.view) v.items
///     ≡ flat_map (write_places view.now) (map write_of writes.now))
/// ensures items: IfOk result (λ v. flat_map (λ one. one.items.now) v.items
///     ≡ flat_map (λ write. write.items) (map write_of writes.now))
/// ensures counts: IfOk result (λ v. All (λ one. size (view_of_picked one.view).shape ≡ length one.items.now) v.items)
/// ensures in_bounds: IfOk result (λ v. (len : ℕ) → LiesWithin len view.now →
///     All (λ one. LiesWithin len (view_of_picked one.view)) v.items)
/// ```
/// [How to read it](crate::contracts)
/// </details>
#[inline]
pub(crate) fn picked_views<'a, T: Copy, D: Lengths>(
    view: &Strided<D>,
    writes: &'a [SliceItems<T>],
) -> Result<Vec<PickedItems<'a, T>>, LayoutError> {
    let mut parts = Vec::new();
    for (slice, items) in writes {
        if items.is_empty() {
            continue;
        }
        let part = PickedView::new(view, slice)?;
        let items = items.as_slice();
        parts.fallible_push(PickedItems { view: part, items })?;
    }
    Ok(parts)
}

/// Writes the items of each part at its places, one part after another.
///
/// <details><summary>Contract (proved)</summary>
///
/// ```text
/// requires in_bounds: All (λ one. LiesWithin (length stored.old) (view_of_picked one.view)) parts.now
/// requires counts: All (λ one. size (view_of_picked one.view).shape ≡ length one.items.now) parts.now
/// ensures AllPairs (λ one other. one ≢ other)
///     (flat_map (λ one. picked_places one.view) parts.now) →
///     HasWritten (flat_map (λ one. picked_places one.view) parts.now)
///     (flat_map (λ one. one.items.now) parts.now) stored.old stored.new
/// ```
/// [How to read it](crate::contracts)
/// </details>
#[inline]
pub(crate) fn write_all<T: Copy>(stored: &mut [T], parts: &[PickedItems<'_, T>]) {
    for one in parts {
        one.view.write(stored, one.items);
    }
}
