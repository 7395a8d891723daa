// Made by `rust/erase` of `crates/nd_lent/src/array_view_mut/borrowing.rt`: edit that.
//! A part that is lent on: one item of it, or all of them by another view.

#![allow(unsafe_code, reason = "proved: a comment says by which clauses")]

use crate::lent::nd_access::Cells;
use crate::lent::nd_lent::array_view_mut::ArrayViewMut;
use crate::ndarray_layout::{Lengths, Strided};
use core::marker::PhantomData;

impl<'a, T, D: Lengths> ArrayViewMut<'a, T, D> {
    /// The element at a place, counted in elements from the first of the slice. The caller ensures that it has a mark.
    ///
    /// Of 7 8 9, place 1 is 8. The project's own.
    ///
    /// <details><summary>Contract (proved)</summary>
    ///
    /// ```text
    /// ensures value: slice_get self.old.cells.items place ≡ Some result.now
    /// ```
    /// [How to read it](crate::contracts)
    /// </details>
    #[inline]
    pub(in crate::lent::nd_lent) fn item_mut(&mut self, place: usize) -> &mut T {
        // SAFETY: as `item_mut` of `Cells`: the place has a mark, which the caller ensures, and while the result is in
        // use the part is borrowed.
        unsafe { core::ptr::NonNull::from(&mut *self.cells.first.add(place)).as_mut() }
    }

    /// Another view of the same items, for a shorter time. The caller ensures that each of its indices has a place to itself, which has a
    /// mark.
    ///
    /// `[2]` from 1 of 7 8 9: 8 and 9. The project's own.
    #[inline]
    pub(in crate::lent::nd_lent) fn borrowed<E: Lengths>(&mut self, view: Strided<E>) -> ArrayViewMut<'_, T, E> {
        ArrayViewMut { cells: Cells { first: self.cells.first, mark: PhantomData }, view }
    }
}
