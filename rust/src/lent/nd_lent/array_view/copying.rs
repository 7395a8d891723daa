// Made by `rust/erase` of `crates/nd_lent/src/array_view/copying.rt`: edit that.
//! New lists of what is made of the items of an array.

use crate::lent::nd_items::Iter;
use crate::lent::nd_lent::array_view::ArrayView;
use crate::lent::nd_loops::push_rows;
use crate::memory::AllocError;
use crate::memory::prelude::{FallibleVec, Vec};
use crate::ndarray_layout::Lengths;

/// How many items rows have at least for which a loop of their own takes less time than one over all items.
const LONG: usize = 16;

/// How many items rows have at most that need no loop of their own: a loop over rows knows their number.
const FEW: usize = 4;

/// Appends what a closure makes of each item to a list with room for it.
///
/// <details><summary>Contract (proved)</summary>
///
/// ```text
/// requires callable: CallableOnAllAt gives F.FnMut items f
/// requires room: vec_len made + length items ≤ vec_capacity made
/// ensures (last : F) × HasPushed (λ p x y q. CalledAt F.FnMut p x y q) f items.entry made.items result.items last
/// ```
/// [How to read it](crate::contracts)
/// </details>
#[inline(always)]
fn push_items<T, U: Sized, F: FnMut(&T) -> U>(mut made: Vec<U>, items: Iter<'_, T>, mut f: F) -> Vec<U> {
    for item in items {
        made.push_reserved(f(item));
    }
    made
}

impl<T, D: Lengths> ArrayView<'_, T, D> {
    /// What a closure makes of each item, in row-major order, as a list.
    ///
    /// The list is allocated first, at once, and the closure isn't called where this fails. Goes over the longest rows that the
    /// axes allow (`Strided::joined_rows`): one whose items follow one another is a loop over a slice. Where most rows have more
    /// than 4 items and fewer than 16, each index takes the time of its place (`Strided::iter_places`).
    ///
    /// `|item| item + 1` at `a`: 9 8. ndarray's `map`, and `iter().map(f).collect()`.
    ///
    /// # Errors
    ///
    /// Out of memory; never where the shape has no index.
    ///
    /// # Conditions
    ///
    /// The function may be called with any item of the array, whatever it was called with before. Where it panics, so
    /// does this call; items that it had written keep what they were given.
    ///
    /// # Examples
    ///
    /// ```
    /// use ndarray_layout::*;
    ///
    /// let a = ArrayView::from_shape(Ix2(2, 3), &[1, 2, 3, 4, 5, 6])?;
    /// assert_eq!(a.t().map_to_vec(|item| item * 10)?, [10, 40, 20, 50, 30, 60]);
    /// # Ok::<(), LayoutError>(())
    /// ```
    ///
    /// <details><summary>Contract (proved)</summary>
    ///
    /// ```text
    /// requires CallableOnAllAt gives F.FnMut (row_major_items self.now) f
    /// ensures ran: IfOk result (λ made. CallsMake (λ p x y q. CalledAt F.FnMut p x y q) f
    ///     (row_major_items self.now) (map Some made.items))
    /// ensures count: IfOk result (λ made. vec_len made ≡ size self.now.view.shape)
    /// ensures mapped: IfOk result (λ made. (h : T → U) → ActsAsAt F.FnMut f h →
    ///     map Some made.items ≡ map (option_map h) (row_major_items self.now))
    /// ensures memory: size self.now.view.shape ≡ 0 → IsOk result
    /// ```
    /// [How to read it](crate::contracts)
    /// </details>
    #[inline]
    pub fn map_to_vec<U: Sized, F: FnMut(&T) -> U>(&self, f: F) -> Result<Vec<U>, AllocError> {
        let made = Vec::fallible_with_capacity(self.len())?;
        let rows = self.joined_rows();
        if rows.len() > self.len() / LONG && rows.row_len() > FEW {
            return Ok(push_items(made, self.iter(), f));
        }
        Ok(push_rows(made, rows, f))
    }
}
