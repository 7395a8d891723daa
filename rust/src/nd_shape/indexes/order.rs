// Made by `rust/erase` of `crates/nd_shape/src/indexes/order.rt`: edit that.
//! The two orders of iterators over indices, as types.

use crate::nd_dim::{advance_column_major, advance_row_major};

/// The order of an iterator over indices.
pub trait IterOrder {
    /// Moves an index of a shape to the next one in the order, and returns whether there is one;
    /// the last index becomes the first, with `false`.
    ///
    /// # Conditions
    ///
    /// The caller ensures that `index` is an index of the shape. Otherwise this call or a later one panics or returns
    /// unspecified values.
    ///
    /// <details><summary>Contract (proved)</summary>
    ///
    /// ```text
    /// requires is_index shape.now index.old ≡ true
    /// ensures more: IsTrue result ↔ (flat_index_in order shape.now index.old + 1 < size shape.now)
    /// ensures next: index.new ≡ (if result
    ///     then index_of_flat_in order shape.now (flat_index_in order shape.now index.old + 1)
    ///     else replicate (length shape.now) 0)
    /// ```
    /// [How to read it](crate::contracts)
    /// </details>
    fn advance(shape: &[usize], index: &mut [usize]) -> bool;
}

/// Row-major order, where the last axis moves fastest.
pub struct RowMajorOrder;

/// Column-major order, where the first axis moves fastest.
pub struct ColumnMajorOrder;

impl IterOrder for RowMajorOrder {
    #[inline(always)]
    fn advance(shape: &[usize], index: &mut [usize]) -> bool {
        advance_row_major(shape, index)
    }
}

impl IterOrder for ColumnMajorOrder {
    #[inline(always)]
    fn advance(shape: &[usize], index: &mut [usize]) -> bool {
        advance_column_major(shape, index)
    }
}
