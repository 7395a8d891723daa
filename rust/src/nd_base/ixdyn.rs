// Made by `rust/erase` of `crates/nd_base/src/ixdyn.rt`: edit that.
//! The dimension of any number of axes.

use crate::memory::AllocError;
use crate::nd_base::dim::{Dim, IxDyn};
use crate::nd_base::dynindeximpl::IxDynImpl;
use crate::nd_base::lengths::{FixedCount, INLINE_AXES, Lengths};
use core::ops::Index;
use core::ops::IndexMut;

/// A shape or an index of as many axes as the slice has items.
///
/// Takes time in proportion to the count of axes. ndarray's `IxDyn(..)`.
///
/// # Errors
///
/// Out of memory; never where there are at most 4.
///
/// <details><summary>Contract (proved)</summary>
///
/// ```text
/// ensures list: IfOk result (λ dim. lengths dim ≡ lens.now)
/// ensures memory: length lens.now ≤ INLINE_AXES → IsOk result
/// ```
/// [How to read it](crate::contracts)
/// </details>
#[inline]
pub fn new_ixdyn(lens: &[usize]) -> Result<IxDyn, AllocError> {
    Ok(IxDyn::new(IxDynImpl::copy_from(lens)?))
}

impl Dim<IxDynImpl> {
    /// The dimension of these lengths. ndarray's `Dim::new`.
    ///
    /// <details><summary>Contract (proved)</summary>
    ///
    /// ```text
    /// ensures lengths result ≡ index
    /// ```
    /// [How to read it](crate::contracts)
    /// </details>
    #[must_use]
    #[inline]
    pub fn new(index: IxDynImpl) -> Self {
        Dim { index }
    }

    /// `n` axes of length 0.
    ///
    /// Takes time in proportion to the count of axes. ndarray's `IxDyn::zeros`.
    ///
    /// # Errors
    ///
    /// Out of memory; never where there are at most 4.
    ///
    /// <details><summary>Contract (proved)</summary>
    ///
    /// ```text
    /// ensures list: IfOk result (λ dim. lengths dim ≡ replicate n 0)
    /// ensures memory: n ≤ INLINE_AXES → IsOk result
    /// ```
    /// [How to read it](crate::contracts)
    /// </details>
    #[inline]
    pub fn zeros(n: usize) -> Result<Self, AllocError> {
        Ok(IxDyn::new(IxDynImpl::zeros(n)?))
    }
}

impl Index<usize> for Dim<IxDynImpl> {
    type Output = usize;

    #[inline]
    fn index(&self, axis: usize) -> &usize {
        &self.index[axis]
    }
}

impl IndexMut<usize> for Dim<IxDynImpl> {
    #[inline]
    fn index_mut(&mut self, axis: usize) -> &mut usize {
        &mut self.index[axis]
    }
}

impl FixedCount for Dim<IxDynImpl> {
    const NDIM: Option<usize> = None;
}

impl Lengths for Dim<IxDynImpl> {
    #[inline]
    fn ndim(&self) -> usize {
        self.slice().len()
    }

    #[inline]
    fn slice(&self) -> &[usize] {
        self.index.as_slice()
    }

    #[inline]
    fn slice_mut(&mut self) -> &mut [usize] {
        self.index.as_mut_slice()
    }

    #[inline]
    fn equal(&self, other: &Self) -> bool {
        self.index == other.index
    }

    #[inline]
    fn zeros(n: usize) -> Result<Self, AllocError> {
        IxDyn::zeros(n)
    }

    #[inline]
    fn duplicate(&self) -> Result<Self, AllocError> {
        new_ixdyn(self.slice())
    }

    #[inline]
    fn copied(&self) -> Option<Self> {
        None
    }
}
