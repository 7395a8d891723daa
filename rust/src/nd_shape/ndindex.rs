// Made by `rust/erase` of `crates/nd_shape/src/ndindex.rt`: edit that.
//! What can index an array.

use crate::memory::prelude::Vec;
use crate::nd_base::{Dim, Ix0, Ix1, Ix2, Ix3, Ix4, Ix5, Ix6, IxDyn, Lengths, index_offset, stride_offset_checked};
use core::fmt::Debug;

/// An index of arrays of the dimension type `E`: one list of coordinates. ndarray's `NdIndex`.
///
/// Sealed: no type outside this package implements it.
pub trait NdIndex<E: Lengths>: Debug + crate::sealed::Sealed {
    /// The offset in elements, with its sign, from the first index to this one; `None` where this
    /// is no index of the shape.
    ///
    /// (1,2) of `[2,3]` with the strides `[3,1]`: 5; (2,0): `None`. ndarray's `index_checked`.
    ///
    /// # Conditions
    ///
    /// The caller ensures that the layout is valid, as it is where `max_abs_offset_check_overflow` succeeds. Otherwise
    /// this call or a later one panics or returns unspecified values.
    ///
    /// <details><summary>Contract (proved)</summary>
    ///
    /// ```text
    /// requires IsValidLayout (E.list dim.now) (all_signed (E.list strides.now))
    /// ensures result ≡ checked_offset (E.list dim.now) (all_signed (E.list strides.now)) (index_list self.now)
    /// ```
    /// [How to read it](crate::contracts)
    /// </details>
    #[must_use]
    fn index_checked(&self, dim: &E, strides: &E) -> Option<isize>;

    /// The offset in elements, with its sign, from the first index to this one, whatever the shape.
    ///
    /// That is so wherever `index_checked` returns an offset.
    ///
    /// (1,2) along the strides `[3,1]`: 5. ndarray's `index_unchecked`.
    ///
    /// # Conditions
    ///
    /// The caller ensures that there are as many coordinates as strides, that each coordinate is at most `isize::MAX`,
    /// and so is the sum of each coordinate times the magnitude of its stride. Otherwise this call or a later one
    /// panics or returns unspecified values.
    ///
    /// <details><summary>Contract (proved)</summary>
    ///
    /// ```text
    /// requires same_count: length (index_list self.now) ≡ length (E.list strides.now)
    /// requires small: All (λ coordinate. coordinate ≤ limit) (index_list self.now)
    /// requires fits: farthest_offset (all_signed (E.list strides.now)) (index_list self.now) ≤ limit
    /// ensures result ≡ offset_of (all_signed (E.list strides.now)) (index_list self.now)
    /// ```
    /// [How to read it](crate::contracts)
    /// </details>
    #[must_use]
    fn index_unchecked(&self, strides: &E) -> isize;
}

impl<D: Lengths> NdIndex<D> for D {
    #[inline]
    fn index_checked(&self, dim: &D, strides: &D) -> Option<isize> {
        stride_offset_checked(dim.slice(), strides.slice(), self.slice())
    }

    #[inline]
    fn index_unchecked(&self, strides: &D) -> isize {
        index_offset(self.slice(), strides.slice())
    }
}

impl NdIndex<Ix0> for () {
    #[inline]
    fn index_checked(&self, dim: &Ix0, strides: &Ix0) -> Option<isize> {
        stride_offset_checked(dim.slice(), strides.slice(), &[])
    }

    #[inline]
    fn index_unchecked(&self, strides: &Ix0) -> isize {
        index_offset(&[], strides.slice())
    }
}

impl NdIndex<Ix1> for usize {
    #[inline]
    fn index_checked(&self, dim: &Ix1, strides: &Ix1) -> Option<isize> {
        stride_offset_checked(dim.slice(), strides.slice(), &[*self])
    }

    #[inline]
    fn index_unchecked(&self, strides: &Ix1) -> isize {
        index_offset(&[*self], strides.slice())
    }
}

impl NdIndex<Ix2> for (usize, usize) {
    #[inline]
    fn index_checked(&self, dim: &Ix2, strides: &Ix2) -> Option<isize> {
        stride_offset_checked(dim.slice(), strides.slice(), &[self.0, self.1])
    }

    #[inline]
    fn index_unchecked(&self, strides: &Ix2) -> isize {
        index_offset(&[self.0, self.1], strides.slice())
    }
}

impl NdIndex<Ix3> for (usize, usize, usize) {
    #[inline]
    fn index_checked(&self, dim: &Ix3, strides: &Ix3) -> Option<isize> {
        stride_offset_checked(dim.slice(), strides.slice(), &[self.0, self.1, self.2])
    }

    #[inline]
    fn index_unchecked(&self, strides: &Ix3) -> isize {
        index_offset(&[self.0, self.1, self.2], strides.slice())
    }
}

impl NdIndex<Ix4> for (usize, usize, usize, usize) {
    #[inline]
    fn index_checked(&self, dim: &Ix4, strides: &Ix4) -> Option<isize> {
        stride_offset_checked(dim.slice(), strides.slice(), &[self.0, self.1, self.2, self.3])
    }

    #[inline]
    fn index_unchecked(&self, strides: &Ix4) -> isize {
        index_offset(&[self.0, self.1, self.2, self.3], strides.slice())
    }
}

impl NdIndex<Ix5> for (usize, usize, usize, usize, usize) {
    #[inline]
    fn index_checked(&self, dim: &Ix5, strides: &Ix5) -> Option<isize> {
        stride_offset_checked(dim.slice(), strides.slice(), &[self.0, self.1, self.2, self.3, self.4])
    }

    #[inline]
    fn index_unchecked(&self, strides: &Ix5) -> isize {
        index_offset(&[self.0, self.1, self.2, self.3, self.4], strides.slice())
    }
}

impl NdIndex<Ix6> for (usize, usize, usize, usize, usize, usize) {
    #[inline]
    fn index_checked(&self, dim: &Ix6, strides: &Ix6) -> Option<isize> {
        stride_offset_checked(dim.slice(), strides.slice(), &[self.0, self.1, self.2, self.3, self.4, self.5])
    }

    #[inline]
    fn index_unchecked(&self, strides: &Ix6) -> isize {
        index_offset(&[self.0, self.1, self.2, self.3, self.4, self.5], strides.slice())
    }
}

impl<const N: usize> NdIndex<Dim<[usize; N]>> for [usize; N] {
    #[inline]
    fn index_checked(&self, dim: &Dim<[usize; N]>, strides: &Dim<[usize; N]>) -> Option<isize> {
        stride_offset_checked(dim.slice(), strides.slice(), self)
    }

    #[inline]
    fn index_unchecked(&self, strides: &Dim<[usize; N]>) -> isize {
        index_offset(self, strides.slice())
    }
}

impl NdIndex<IxDyn> for usize {
    #[inline]
    fn index_checked(&self, dim: &IxDyn, strides: &IxDyn) -> Option<isize> {
        stride_offset_checked(dim.slice(), strides.slice(), &[*self])
    }

    #[inline]
    fn index_unchecked(&self, strides: &IxDyn) -> isize {
        index_offset(&[*self], strides.slice())
    }
}

impl<const N: usize> NdIndex<IxDyn> for [usize; N] {
    #[inline]
    fn index_checked(&self, dim: &IxDyn, strides: &IxDyn) -> Option<isize> {
        stride_offset_checked(dim.slice(), strides.slice(), self)
    }

    #[inline]
    fn index_unchecked(&self, strides: &IxDyn) -> isize {
        index_offset(self, strides.slice())
    }
}

impl<const N: usize> NdIndex<IxDyn> for Dim<[usize; N]> {
    #[inline]
    fn index_checked(&self, dim: &IxDyn, strides: &IxDyn) -> Option<isize> {
        stride_offset_checked(dim.slice(), strides.slice(), self.slice())
    }

    #[inline]
    fn index_unchecked(&self, strides: &IxDyn) -> isize {
        index_offset(self.slice(), strides.slice())
    }
}

impl NdIndex<IxDyn> for &[usize] {
    #[inline]
    fn index_checked(&self, dim: &IxDyn, strides: &IxDyn) -> Option<isize> {
        stride_offset_checked(dim.slice(), strides.slice(), self)
    }

    #[inline]
    fn index_unchecked(&self, strides: &IxDyn) -> isize {
        index_offset(self, strides.slice())
    }
}

impl NdIndex<IxDyn> for Vec<usize> {
    #[inline]
    fn index_checked(&self, dim: &IxDyn, strides: &IxDyn) -> Option<isize> {
        stride_offset_checked(dim.slice(), strides.slice(), self.as_slice())
    }

    #[inline]
    fn index_unchecked(&self, strides: &IxDyn) -> isize {
        index_offset(self.as_slice(), strides.slice())
    }
}

impl NdIndex<IxDyn> for &IxDyn {
    #[inline]
    fn index_checked(&self, dim: &IxDyn, strides: &IxDyn) -> Option<isize> {
        stride_offset_checked(dim.slice(), strides.slice(), self.slice())
    }

    #[inline]
    fn index_unchecked(&self, strides: &IxDyn) -> isize {
        index_offset(self.slice(), strides.slice())
    }
}
