// Made by `rust/erase` of `crates/nd_shape/src/indexes/indices.rt`: edit that.
//! All indices of a shape, to iterate over.

use crate::memory::AllocError;
use crate::nd_base::Lengths;
use crate::nd_dim::Dimension;
use crate::nd_shape::indexes::indices_iter::IndicesIter;

/// All indices of a shape, over which a `for` loop iterates in row-major order. ndarray's `Indices`.
#[derive(Debug)]
pub struct Indices<D: Lengths> {
    dim: D,
}

impl<D: Lengths> Indices<D> {
    /// All indices of a shape whose size fits.
    ///
    /// <details><summary>Contract (proved)</summary>
    ///
    /// ```text
    /// requires size (D.list dim) < 2 ^ 64
    /// ensures result ≡ dim
    /// ```
    /// [How to read it](crate::contracts)
    /// </details>
    #[inline]
    pub(super) fn new(dim: D) -> Self {
        Indices { dim }
    }
}

impl<D: Lengths + Clone> Clone for Indices<D> {
    fn clone(&self) -> Self {
        Indices { dim: self.dim.clone() }
    }
}

impl<D: Lengths + Copy> Copy for Indices<D> {}

impl<D: Dimension + Clone> IntoIterator for Indices<D> {
    type Item = D::Pattern;

    type IntoIter = IndicesIter<D>;

    #[inline]
    fn into_iter(self) -> IndicesIter<D> {
        let mut first = self.dim.clone();
        first.slice_mut().fill(0);
        IndicesIter::starting(self.dim.clone(), first)
    }
}
