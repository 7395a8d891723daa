//! The conditions of `ArrayView::new` and `ArrayViewMut::new`, which no proof of their callers shows.

use crate::convenience::OUT_OF_MEMORY;
use crate::memory::FallibleVec;
use crate::nd_base::Lengths;
use crate::nd_shape::{has_overlap, low_span, span_of_lengths};
use crate::ndarray_layout::{Order, Strided};
use alloc::vec::Vec;

/// Whether each index of a view has one of so many items, whatever numbers the view has; a view without an index has no item.
/// Not proved; what keeps the `unsafe` of the package sound stands on it, since a view may have been made by a call whose condition is
/// broken.
#[inline]
pub(crate) fn has_items<D: Lengths>(view: &Strided<D>, len: usize) -> bool {
    let (shape, strides) = (view.dim().slice(), view.strides().slice());
    let highest = || {
        let span = span_of_lengths(1, shape, strides).ok()?;
        view.start().checked_sub(low_span(shape, strides))?.checked_add(span)
    };
    shape.contains(&0) || highest().is_some_and(|highest| highest < len)
}

/// Whether besides no two indices share one. Not proved, as `has_items`.
#[inline]
pub(crate) fn has_own_items<D: Lengths>(view: &Strided<D>, len: usize) -> bool {
    lies_in_order(view, len)
        || has_items(view, len) && (!has_overlap(view.dim().slice(), view.strides().slice()) || are_distinct(view, len))
}

/// Whether the places of a view rise in row-major order, up to one of so many: each axis steps past all that those after it reach.
/// A negative stride, read as a `usize`, leads past `isize::MAX`: it is none of these.
#[inline]
fn lies_in_order<D: Lengths>(view: &Strided<D>, len: usize) -> bool {
    let (shape, strides) = (view.dim().slice(), view.strides().slice());
    let end = shape.iter().zip(strides).rev().try_fold(1, |past: usize, (len, stride)| match len {
        1 => Some(past),
        _ if *stride < past => None,
        _ => len.checked_sub(1)?.checked_mul(*stride)?.checked_add(past),
    });
    let end = end.and_then(|end| end.checked_add(view.start()));
    shape.len() == strides.len() && end.is_some_and(|end| end <= len.min(isize::MAX as usize))
}

/// Whether no two indices of a view within so many items have one place, by a sort of the places: where the no-alias rule is broken, it
/// doesn't decide that. Panics where the allocation fails.
#[cold]
fn are_distinct<D: Lengths>(view: &Strided<D>, len: usize) -> bool {
    if view.len() > len {
        return false;
    }
    let mut places = Vec::fallible_with_capacity(view.len()).expect(OUT_OF_MEMORY);
    places.extend(view.iter_places(Order::RowMajor));
    places.sort_unstable();
    places.is_sorted_by(|place, next| place < next)
}
