// Made by `rust/erase` of `crates/nd_lent/src/memory_range.rt`: edit that.
//! The interval of memory that the items of a view fill, whatever the order of its axes.

use crate::lent::nd_access::is_contiguous;
use crate::ndarray_layout::{Dimension, Strided, offset_from_low_addr_ptr_to_logical_ptr};

/// The lowest place of a view, and how many places it has, where no two indices alias and the places are consecutive numbers; else
/// `None`. Without an index both are 0.
///
/// `[2,3]`, `[-1,2]` from 4: 3 and 6.
///
/// <details><summary>Contract (proved)</summary>
///
/// ```text
/// ensures found: IsSome result ↔ FillsInterval view.now.shape view.now.strides
/// ensures start: IfSome result (λ (start, len). 0 < len → start ≡ lowest view.now)
/// ensures len: IfSome result (λ (start, len). len ≡ size view.now.shape)
/// ensures marked: IfSome result (λ (start, len). (marks : List Bool) → AreMarked marks view.now →
///     IsTrue (are_within (span_of start len marks) marks) × (start + len ≤ length marks))
/// ```
/// [How to read it](crate::contracts)
/// </details>
#[inline]
pub(crate) fn memory_range<D: Dimension>(view: &Strided<D>) -> Option<(usize, usize)> {
    if view.is_empty() {
        return Some((0, 0));
    }
    let (dim, strides) = (view.dim(), view.strides());
    if !D::is_contiguous(dim, strides) {
        return None;
    }
    let low = offset_from_low_addr_ptr_to_logical_ptr(dim, strides);
    Some((view.start() - low, view.len()))
}
