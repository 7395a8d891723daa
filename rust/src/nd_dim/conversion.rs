// Made by `rust/erase` of `crates/nd_dim/src/conversion.rt`: edit that.
//! What makes a dimension.

use crate::memory::AllocError;
use crate::memory::prelude::Vec;
use crate::nd_base::{
    Dim, Ix0, Ix1, Ix2, Ix3, Ix4, Ix5, Ix6, IxDyn, IxDynImpl, Lengths, new_ix0, new_ix1, new_ix2, new_ix3, new_ix4,
    new_ix5, new_ix6, new_ixdyn,
};

/// What stands for a list of lengths and converts to a dimension. ndarray's `IntoDimension`.
pub trait IntoDimension {
    /// The dimension type that it makes.
    type Dim: Lengths;

    /// The dimension of the same list.
    ///
    /// ndarray's `into_dimension`.
    ///
    /// # Errors
    ///
    /// Out of memory; never where the type fixes the count or there are at most 4 axes, nor from a
    /// dimension, an `IxDynImpl` or a vector.
    ///
    /// <details><summary>Contract (proved)</summary>
    ///
    /// ```text
    /// ensures list: IfOk result (λ dim. Self.Dim.list dim ≡ lens self)
    /// ensures memory: NeedsNoMemory Self.Dim.NDIM (length (lens self)) → IsOk result
    /// ensures no_memory: needs_memory self ≡ false → IsOk result
    /// ```
    /// [How to read it](crate::contracts)
    /// </details>
    fn into_dimension(self) -> Result<Self::Dim, AllocError>;
}

/// The dimension of a list of lengths, however it is written.
///
/// `[2,3]`, an array: the `Ix2` of 2 and 3. ndarray's `Dim(..)`.
///
/// # Errors
///
/// Out of memory; never where the type fixes the count or there are at most 4 axes, nor from a
/// dimension, an `IxDynImpl` or a vector.
///
/// <details><summary>Contract (proved)</summary>
///
/// ```text
/// ensures list: IfOk result (λ dim. T.Dim.list dim ≡ T.lens lens)
/// ensures memory: NeedsNoMemory T.Dim.NDIM (length (T.lens lens)) → IsOk result
/// ensures no_memory: T.needs_memory lens ≡ false → IsOk result
/// ```
/// [How to read it](crate::contracts)
/// </details>
#[inline]
pub fn new_dim<T: IntoDimension>(lens: T) -> Result<T::Dim, AllocError> {
    lens.into_dimension()
}

impl<const N: usize> IntoDimension for Dim<[usize; N]> {
    type Dim = Self;

    #[inline]
    fn into_dimension(self) -> Result<Self, AllocError> {
        Ok(self)
    }
}

impl IntoDimension for Dim<IxDynImpl> {
    type Dim = Self;

    /// This value itself.
    ///
    /// # Errors
    ///
    /// None, whatever the count of axes.
    ///
    /// <details><summary>Contract (proved)</summary>
    ///
    /// ```text
    /// ensures list: IfOk result (λ dim. lengths dim ≡ lengths self)
    /// ensures memory: IsOk result
    /// ```
    /// [How to read it](crate::contracts)
    /// </details>
    #[inline]
    fn into_dimension(self) -> Result<Self, AllocError> {
        Ok(self)
    }
}

impl IntoDimension for IxDynImpl {
    type Dim = IxDyn;

    /// The dimension that keeps this list.
    ///
    /// # Errors
    ///
    /// None, whatever the count of axes.
    ///
    /// <details><summary>Contract (proved)</summary>
    ///
    /// ```text
    /// ensures list: IfOk result (λ dim. lengths dim ≡ self)
    /// ensures memory: IsOk result
    /// ```
    /// [How to read it](crate::contracts)
    /// </details>
    #[inline]
    fn into_dimension(self) -> Result<IxDyn, AllocError> {
        Ok(IxDyn::new(self))
    }
}

impl IntoDimension for &[usize] {
    type Dim = IxDyn;

    #[inline]
    fn into_dimension(self) -> Result<IxDyn, AllocError> {
        new_ixdyn(self)
    }
}

impl IntoDimension for Vec<usize> {
    type Dim = IxDyn;

    /// The dimension of the vector's items, which keeps its memory where there is room for more than
    /// 4.
    ///
    /// # Errors
    ///
    /// None, whatever the count of axes.
    ///
    /// <details><summary>Contract (proved)</summary>
    ///
    /// ```text
    /// ensures list: IfOk result (λ dim. lengths dim ≡ self.items)
    /// ensures memory: IsOk result
    /// ```
    /// [How to read it](crate::contracts)
    /// </details>
    #[inline]
    fn into_dimension(self) -> Result<IxDyn, AllocError> {
        Ok(IxDyn::new(IxDynImpl::from_vec(self)?))
    }
}

impl<const N: usize> IntoDimension for [usize; N] {
    type Dim = Dim<[usize; N]>;

    #[inline]
    fn into_dimension(self) -> Result<Dim<[usize; N]>, AllocError> {
        Ok(Dim::<[usize; N]>::new(self))
    }
}

impl IntoDimension for usize {
    type Dim = Ix1;

    #[inline]
    fn into_dimension(self) -> Result<Ix1, AllocError> {
        Ok(new_ix1(self))
    }
}

impl IntoDimension for () {
    type Dim = Ix0;

    #[inline]
    fn into_dimension(self) -> Result<Ix0, AllocError> {
        Ok(new_ix0())
    }
}

impl IntoDimension for (usize,) {
    type Dim = Ix1;

    #[inline]
    fn into_dimension(self) -> Result<Ix1, AllocError> {
        Ok(new_ix1(self.0))
    }
}

impl IntoDimension for (usize, usize) {
    type Dim = Ix2;

    #[inline]
    fn into_dimension(self) -> Result<Ix2, AllocError> {
        Ok(new_ix2(self.0, self.1))
    }
}

impl IntoDimension for (usize, usize, usize) {
    type Dim = Ix3;

    #[inline]
    fn into_dimension(self) -> Result<Ix3, AllocError> {
        Ok(new_ix3(self.0, self.1, self.2))
    }
}

impl IntoDimension for (usize, usize, usize, usize) {
    type Dim = Ix4;

    #[inline]
    fn into_dimension(self) -> Result<Ix4, AllocError> {
        Ok(new_ix4(self.0, self.1, self.2, self.3))
    }
}

impl IntoDimension for (usize, usize, usize, usize, usize) {
    type Dim = Ix5;

    #[inline]
    fn into_dimension(self) -> Result<Ix5, AllocError> {
        Ok(new_ix5(self.0, self.1, self.2, self.3, self.4))
    }
}

impl IntoDimension for (usize, usize, usize, usize, usize, usize) {
    type Dim = Ix6;

    #[inline]
    fn into_dimension(self) -> Result<Ix6, AllocError> {
        Ok(new_ix6(self.0, self.1, self.2, self.3, self.4, self.5))
    }
}
