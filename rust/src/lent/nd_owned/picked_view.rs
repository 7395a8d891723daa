// Made by `rust/erase` of `crates/nd_owned/src/picked_view.rt`: edit that.
//! What a slice picks of a view, and the items there, read and written.

use crate::lent::nd_owned::rows::{read_view, write_view};
use crate::memory::AllocError;
use crate::memory::prelude::Vec;
use crate::ndarray_layout::{Fit, Ix1, Ix2, IxDyn, LayoutError, Lengths, SliceElems, Strided, out_ndim_of};

/// The view of what a slice picks. One or two axes that are left are axes of a type that fixes their count, where slicing takes less time.
pub(crate) enum PickedView {
    Line(Strided<Ix1>),
    Plane(Strided<Ix2>),
    Any(Strided<IxDyn>),
}

impl PickedView {
    /// The part of a view that a slice picks. Errors: those of `check_slice` on the shape, then out of memory, never where at
    /// most 4 axes are left.
    ///
    /// <details><summary>Contract (proved)</summary>
    ///
    /// ```text
    /// ensures fault: shape_fault result ≡ argument_fault Strict view.now.shape (S.list slice.now)
    /// ensures part: IfOk result (λ part. view_of_picked part ≡ slice_of Strict (S.list slice.now) view.now)
    /// ensures in_bounds: IfOk result (λ part. (len : ℕ) → LiesWithin len view.now →
    ///     LiesWithin len (view_of_picked part))
    /// ensures memory: IsOfNone view.now.shape (S.list slice.now) → IsOk result
    /// ```
    /// [How to read it](crate::contracts)
    /// </details>
    #[inline]
    pub(crate) fn new<D: Lengths, S: SliceElems>(view: &Strided<D>, slice: &S) -> Result<Self, LayoutError> {
        let ndim = out_ndim_of(slice.elems());
        if ndim == 1 {
            return Ok(PickedView::Line(view.slice(slice, Fit::Strict)?));
        }
        if ndim == 2 {
            return Ok(PickedView::Plane(view.slice(slice, Fit::Strict)?));
        }
        Ok(PickedView::Any(view.slice(slice, Fit::Strict)?))
    }

    /// How many places it has.
    ///
    /// <details><summary>Contract (proved)</summary>
    ///
    /// ```text
    /// ensures result ≡ size (view_of_picked self.now).shape
    /// ```
    /// [How to read it](crate::contracts)
    /// </details>
    #[inline]
    pub(crate) fn size(&self) -> usize {
        match self {
            PickedView::Line(view) => view.len(),
            PickedView::Plane(view) => view.len(),
            PickedView::Any(view) => view.len(),
        }
    }

    /// Copies of the items at its places.
    ///
    /// <details><summary>Contract (proved)</summary>
    ///
    /// ```text
    /// requires LiesWithin (length stored.now) (view_of_picked self.now)
    /// ensures items: IfOk result (λ v. map Some v.items ≡ map (item_at_place stored.now) (picked_places self.now))
    /// ensures memory: size (view_of_picked self.now).shape ≡ 0 → IsOk result
    /// ```
    /// [How to read it](crate::contracts)
    /// </details>
    #[inline]
    pub(crate) fn read<T: Copy>(&self, stored: &[T]) -> Result<Vec<T>, AllocError> {
        match self {
            PickedView::Line(view) => read_view(view, stored),
            PickedView::Plane(view) => read_view(view, stored),
            PickedView::Any(view) => read_view(view, stored),
        }
    }

    /// Writes an item at each of its places.
    ///
    /// <details><summary>Contract (proved)</summary>
    ///
    /// ```text
    /// requires within: LiesWithin (length stored.old) (view_of_picked self.now)
    /// requires count: size (view_of_picked self.now).shape ≡ length items.now
    /// ensures AllPairs (λ one other. one ≢ other) (picked_places self.now) →
    ///     HasWritten (picked_places self.now) items.now stored.old stored.new
    /// ```
    /// [How to read it](crate::contracts)
    /// </details>
    #[inline]
    pub(crate) fn write<T: Copy>(&self, stored: &mut [T], items: &[T]) {
        match self {
            PickedView::Line(view) => write_view(stored, view, items),
            PickedView::Plane(view) => write_view(stored, view, items),
            PickedView::Any(view) => write_view(stored, view, items),
        }
    }
}
