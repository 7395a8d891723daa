// Made by `rust/erase` of `crates/nd_base/src/dim.rt`: edit that.
//! The dimension types.

use crate::memory::AllocError;
use crate::nd_base::dynindeximpl::IxDynImpl;
use crate::nd_base::lengths::{FixedCount, Lengths};
use core::ops::Index;
use core::ops::IndexMut;

/// A dimension: the lengths of the axes, in order; or one number for each axis, as of an index or
/// of strides. ndarray's `Dim`.
#[derive(Clone, Copy, PartialEq, Eq, Hash, Debug)]
pub struct Dim<I> {
    pub(crate) index: I,
}

/// No axes. ndarray's `Ix0`.
pub type Ix0 = Dim<[usize; 0]>;

/// One axis. ndarray's `Ix1`.
pub type Ix1 = Dim<[usize; 1]>;

/// Two axes. ndarray's `Ix2`.
pub type Ix2 = Dim<[usize; 2]>;

/// Three axes. ndarray's `Ix3`.
pub type Ix3 = Dim<[usize; 3]>;

/// Four axes. ndarray's `Ix4`.
pub type Ix4 = Dim<[usize; 4]>;

/// Five axes. ndarray's `Ix5`.
pub type Ix5 = Dim<[usize; 5]>;

/// Six axes. ndarray's `Ix6`.
pub type Ix6 = Dim<[usize; 6]>;

/// Any number of axes. ndarray's `IxDyn`.
pub type IxDyn = Dim<IxDynImpl>;

/// The shape or the index of no axes. ndarray's `Ix0()`.
///
/// # Examples
///
/// ```
/// use ndarray_layout::{Dimension, Ix0};
///
/// assert_eq!(Ix0().size(), 1);
/// ```
///
/// <details><summary>Contract (proved)</summary>
///
/// ```text
/// ensures lengths result ≡ []
/// ```
/// [How to read it](crate::contracts)
/// </details>
#[inline]
#[must_use]
pub const fn new_ix0() -> Ix0 {
    Dim { index: [] }
}

/// A shape or an index of one axis. ndarray's `Ix1(..)`.
///
/// # Examples
///
/// ```
/// use ndarray_layout::Ix1;
///
/// assert_eq!(Ix1(4)[0], 4);
/// ```
///
/// <details><summary>Contract (proved)</summary>
///
/// ```text
/// ensures lengths result ≡ i0 ∷ []
/// ```
/// [How to read it](crate::contracts)
/// </details>
#[inline]
#[must_use]
pub const fn new_ix1(i0: usize) -> Ix1 {
    Dim { index: [i0] }
}

/// A shape or an index of two axes. ndarray's `Ix2(..)`.
///
/// # Examples
///
/// ```
/// use ndarray_layout::{Dimension, Ix2};
///
/// assert_eq!(Ix2(3, 5).size(), 15);
/// ```
///
/// <details><summary>Contract (proved)</summary>
///
/// ```text
/// ensures lengths result ≡ i0 ∷ i1 ∷ []
/// ```
/// [How to read it](crate::contracts)
/// </details>
#[inline]
#[must_use]
pub const fn new_ix2(i0: usize, i1: usize) -> Ix2 {
    Dim { index: [i0, i1] }
}

/// A shape or an index of three axes. ndarray's `Ix3(..)`.
///
/// # Examples
///
/// ```
/// use ndarray_layout::{Ix3, default_strides};
///
/// assert_eq!(default_strides(&Ix3(2, 3, 4)), Ok(Ix3(12, 4, 1)));
/// ```
///
/// <details><summary>Contract (proved)</summary>
///
/// ```text
/// ensures lengths result ≡ i0 ∷ i1 ∷ i2 ∷ []
/// ```
/// [How to read it](crate::contracts)
/// </details>
#[inline]
#[must_use]
pub const fn new_ix3(i0: usize, i1: usize, i2: usize) -> Ix3 {
    Dim { index: [i0, i1, i2] }
}

/// A shape or an index of four axes. ndarray's `Ix4(..)`.
///
/// # Examples
///
/// ```
/// use ndarray_layout::{Ix4, Lengths};
///
/// assert_eq!(Ix4(2, 3, 4, 5).slice(), [2, 3, 4, 5]);
/// ```
///
/// <details><summary>Contract (proved)</summary>
///
/// ```text
/// ensures lengths result ≡ i0 ∷ i1 ∷ i2 ∷ i3 ∷ []
/// ```
/// [How to read it](crate::contracts)
/// </details>
#[inline]
#[must_use]
pub const fn new_ix4(i0: usize, i1: usize, i2: usize, i3: usize) -> Ix4 {
    Dim { index: [i0, i1, i2, i3] }
}

/// A shape or an index of five axes. ndarray's `Ix5(..)`.
///
/// # Examples
///
/// ```
/// use ndarray_layout::{Ix5, Lengths};
///
/// assert_eq!(Ix5(2, 3, 4, 5, 6).slice(), [2, 3, 4, 5, 6]);
/// ```
///
/// <details><summary>Contract (proved)</summary>
///
/// ```text
/// ensures lengths result ≡ i0 ∷ i1 ∷ i2 ∷ i3 ∷ i4 ∷ []
/// ```
/// [How to read it](crate::contracts)
/// </details>
#[inline]
#[must_use]
pub const fn new_ix5(i0: usize, i1: usize, i2: usize, i3: usize, i4: usize) -> Ix5 {
    Dim { index: [i0, i1, i2, i3, i4] }
}

/// A shape or an index of six axes. ndarray's `Ix6(..)`.
///
/// # Examples
///
/// ```
/// use ndarray_layout::{Ix6, Lengths};
///
/// assert_eq!(Ix6(2, 3, 4, 5, 6, 7).slice(), [2, 3, 4, 5, 6, 7]);
/// ```
///
/// <details><summary>Contract (proved)</summary>
///
/// ```text
/// ensures lengths result ≡ i0 ∷ i1 ∷ i2 ∷ i3 ∷ i4 ∷ i5 ∷ []
/// ```
/// [How to read it](crate::contracts)
/// </details>
#[inline]
#[must_use]
pub const fn new_ix6(i0: usize, i1: usize, i2: usize, i3: usize, i4: usize, i5: usize) -> Ix6 {
    Dim { index: [i0, i1, i2, i3, i4, i5] }
}

impl<const N: usize> Dim<[usize; N]> {
    /// The dimension of these lengths. ndarray's `Dim::new`.
    ///
    /// <details><summary>Contract (proved)</summary>
    ///
    /// ```text
    /// ensures lengths result ≡ index.entry
    /// ```
    /// [How to read it](crate::contracts)
    /// </details>
    #[must_use]
    #[inline]
    pub const fn new(index: [usize; N]) -> Self {
        Dim { index }
    }
}

impl<const N: usize> Default for Dim<[usize; N]> {
    #[inline]
    fn default() -> Self {
        Dim { index: [0; N] }
    }
}

impl<const N: usize> Index<usize> for Dim<[usize; N]> {
    type Output = usize;

    #[inline]
    fn index(&self, axis: usize) -> &usize {
        &self.index[axis]
    }
}

impl<const N: usize> IndexMut<usize> for Dim<[usize; N]> {
    #[inline]
    fn index_mut(&mut self, axis: usize) -> &mut usize {
        &mut self.index[axis]
    }
}

impl<const N: usize> FixedCount for Dim<[usize; N]> {
    const NDIM: Option<usize> = Some(N);
}

impl<const N: usize> Lengths for Dim<[usize; N]> {
    #[inline]
    fn ndim(&self) -> usize {
        N
    }

    #[inline]
    fn slice(&self) -> &[usize] {
        &self.index[..]
    }

    #[inline]
    fn slice_mut(&mut self) -> &mut [usize] {
        &mut self.index
    }

    #[inline]
    fn equal(&self, other: &Self) -> bool {
        self.index == other.index
    }

    #[inline]
    fn zeros(_n: usize) -> Result<Self, AllocError> {
        Ok(Dim { index: [0; N] })
    }

    #[inline]
    fn duplicate(&self) -> Result<Self, AllocError> {
        Ok(*self)
    }

    #[inline]
    fn copied(&self) -> Option<Self> {
        Some(*self)
    }
}
