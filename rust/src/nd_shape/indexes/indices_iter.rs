// Made by `rust/erase` of `crates/nd_shape/src/indexes/indices_iter.rt`: edit that.
//! The iterator over the indices of a shape, in either order.

use crate::memory::AllocError;
use crate::nd_base::Lengths;
use crate::nd_dim::{Dimension, product};
use crate::nd_shape::indexes::order::{ColumnMajorOrder, IterOrder, RowMajorOrder};
use core::iter::FusedIterator;
use core::marker::PhantomData;

/// Iterator over the indices of a shape in row-major order, where the last axis moves fastest.
/// ndarray's `IndicesIter`.
pub type IndicesIter<D> = IndexIter<D, RowMajorOrder>;

/// Iterator over the indices of a shape in column-major order, where the first axis moves fastest.
/// ndarray's `IndicesIterF`.
pub type IndicesIterF<D> = IndexIter<D, ColumnMajorOrder>;

/// Iterator over the indices of a shape in an order.
pub struct IndexIter<D: Lengths, O: IterOrder> {
    dim: D,
    // The next index, where there is one, and how many are left.
    index: D,
    has_remaining: bool,
    left: usize,
    order: PhantomData<O>,
}

impl<D: Lengths, O: IterOrder> IndexIter<D, O> {
    /// The iterator over all indices of a shape whose size fits, from its first index, all 0.
    ///
    /// <details><summary>Contract (proved)</summary>
    ///
    /// ```text
    /// requires size: size (D.list dim) < 2 ^ 64
    /// requires first: D.list first ≡ replicate (length (D.list dim)) 0
    /// ensures items: result ≡ indices_in O.order (D.list dim)
    /// ```
    /// [How to read it](crate::contracts)
    /// </details>
    #[inline]
    pub(super) fn starting(dim: D, first: D) -> Self {
        let left = product(dim.slice());
        IndexIter { dim, index: first, has_remaining: left != 0, left, order: PhantomData }
    }
}

impl<D: Lengths + Clone, O: IterOrder> Clone for IndexIter<D, O> {
    #[inline]
    fn clone(&self) -> Self {
        IndexIter {
            dim: self.dim.clone(),
            index: self.index.clone(),
            has_remaining: self.has_remaining,
            left: self.left,
            order: PhantomData,
        }
    }
}

impl<D: Dimension + Clone, O: IterOrder> Iterator for IndexIter<D, O> {
    type Item = D::Pattern;

    #[inline]
    fn next(&mut self) -> Option<D::Pattern> {
        if !self.has_remaining {
            return None;
        }
        self.left -= 1;
        let index = self.index.clone();
        let mut next = index.clone();
        self.has_remaining = O::advance(self.dim.slice(), next.slice_mut());
        // (of two axes the last index is kept: so the compiler keeps a branch for the end of a row, which can
        // be foreseen, and the loop runs in half the time; of more it keeps one anyway)
        if self.has_remaining || self.dim.ndim() != 2 {
            self.index = next;
        }
        Some(index.into_pattern())
    }

    #[inline]
    fn size_hint(&self) -> (usize, Option<usize>) {
        (self.left, Some(self.left))
    }
}

impl<D: Dimension + Clone, O: IterOrder> ExactSizeIterator for IndexIter<D, O> {
    #[inline]
    fn len(&self) -> usize {
        self.left
    }
}

impl<D: Dimension + Clone, O: IterOrder> FusedIterator for IndexIter<D, O> {}
