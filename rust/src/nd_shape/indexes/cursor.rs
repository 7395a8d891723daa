// Made by `rust/erase` of `crates/nd_shape/src/indexes/cursor.rt`: edit that.
//! The iterator over the indices of a shape of any number of axes, in either order. It lends each index, so that
//! only its making takes memory.

use crate::memory::AllocError;
use crate::nd_base::{INLINE_AXES, IxDyn, Lengths};
use crate::nd_dim::product;
use crate::nd_shape::indexes::order::{ColumnMajorOrder, IterOrder, RowMajorOrder};
use core::marker::PhantomData;

/// Iterator that lends the indices of a shape in row-major order, where the last axis moves
/// fastest. In place of ndarray's `IndicesIter` over `IxDyn`.
pub type IndexCursor = Cursor<RowMajorOrder>;

/// Iterator that lends the indices of a shape in column-major order, where the first axis moves
/// fastest. In place of ndarray's `IndicesIterF` over `IxDyn`.
pub type IndexCursorF = Cursor<ColumnMajorOrder>;

/// Iterator that lends the indices of a shape in an order.
pub struct Cursor<O: IterOrder> {
    dim: IxDyn,
    // The index that was lent last, or else the first one, and how many are left.
    index: IxDyn,
    is_lent: bool,
    left: usize,
    order: PhantomData<O>,
}

impl<O: IterOrder> Cursor<O> {
    /// The iterator over all indices of a shape.
    ///
    /// `[3,2]` in row-major order: (0, 0), (0, 1), (1, 0), (1, 1), (2, 0), (2, 1).
    ///
    /// # Errors
    ///
    /// Out of memory; never where there are at most 4 axes, or where a length is 0.
    ///
    /// # Conditions
    ///
    /// The caller ensures that the product of the lengths is less than 2^64 (`size_checked`). Otherwise this call or a
    /// later one panics or returns unspecified values.
    ///
    /// <details><summary>Contract (proved)</summary>
    ///
    /// ```text
    /// requires size (lengths dim) < 2 ^ 64
    /// ensures items: IfOk result (λ cursor. cursor ≡ indices_in O.order (lengths dim))
    /// ensures memory: length (lengths dim) ≤ INLINE_AXES → IsOk result
    /// ensures no_index: is_empty (lengths dim) ≡ true → IsOk result
    /// ```
    /// [How to read it](crate::contracts)
    /// </details>
    #[inline]
    pub fn new(dim: IxDyn) -> Result<Self, AllocError> {
        let left = product(dim.slice());
        // (without an index to lend none is kept, which takes no memory)
        let axes = if left == 0 { 0 } else { dim.ndim() };
        let index = IxDyn::zeros(axes)?;
        Ok(Cursor { dim, index, is_lent: false, left, order: PhantomData })
    }

    /// Lends the next index, or `None` after the last one, however often it is called. Takes no
    /// memory.
    ///
    /// <details><summary>Contract (proved)</summary>
    ///
    /// ```text
    /// ensures index: option_map (λ index. index.now) result ≡ slice_get self.old 0
    /// ```
    /// [How to read it](crate::contracts)
    /// </details>
    #[must_use]
    #[inline]
    pub fn next(&mut self) -> Option<&[usize]> {
        if self.left == 0 {
            return None;
        }
        if self.is_lent {
            O::advance(self.dim.slice(), self.index.slice_mut());
        }
        self.is_lent = true;
        self.left -= 1;
        Some(self.index.slice())
    }

    /// The number of indices that are left.
    ///
    /// <details><summary>Contract (proved)</summary>
    ///
    /// ```text
    /// ensures result ≡ length self.now
    /// ```
    /// [How to read it](crate::contracts)
    /// </details>
    #[inline]
    #[must_use]
    pub fn len(&self) -> usize {
        self.left
    }
}
