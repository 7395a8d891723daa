// Made by `rust/erase` of `crates/nd_slice/src/arg.rt`: edit that.
//! Slice arguments whose type says which shapes they are for.

use crate::nd_base::{Dim, FixedCount, IxDyn, Lengths};
use crate::nd_slice::elem::SliceInfoElem;
use crate::nd_slice::elems::SliceElems;
use crate::nd_slice::info::SliceInfo;
use crate::nd_slice::slice_errors::{in_ndim_of, out_ndim_of};

/// A slice argument for shapes of the type `D`. ndarray's `SliceArg`.
///
/// Sealed: no type outside this package implements it.
pub trait SliceArg<D: FixedCount>: SliceElems + crate::sealed::Sealed {
    /// The type of the shapes that it leaves.
    type OutDim: crate::Dimension;

    /// The number of axes of the shapes that it slices: as many as `D` has, where `D` fixes a
    /// count.
    ///
    /// Takes time in proportion to the slices and indices of the argument where `D` fixes no count.
    ///
    /// `..,2,NewAxis` is for 2 axes. ndarray's `SliceArg::in_ndim`.
    ///
    /// <details><summary>Contract (proved)</summary>
    ///
    /// ```text
    /// ensures count: result ≡ in_count (Self.list self.now)
    /// ensures fixed: IsCount D.NDIM result
    /// ```
    /// [How to read it](crate::contracts)
    /// </details>
    #[must_use]
    fn in_ndim(&self) -> usize;

    /// The number of axes of the result: as many as `OutDim` has, where that fixes a count.
    ///
    /// Takes time in proportion to the slices and indices of the argument where `OutDim` fixes no
    /// count.
    ///
    /// `..,2,NewAxis` leaves 2 axes. ndarray's `SliceArg::out_ndim`.
    ///
    /// <details><summary>Contract (proved)</summary>
    ///
    /// ```text
    /// ensures count: result ≡ out_count (Self.list self.now)
    /// ensures fixed: IsCount Self.OutDim.NDIM result
    /// ```
    /// [How to read it](crate::contracts)
    /// </details>
    #[must_use]
    fn out_ndim(&self) -> usize;
}

impl<T: SliceElems, Dout: crate::Dimension, const N: usize> SliceArg<Dim<[usize; N]>>
    for SliceInfo<T, Dim<[usize; N]>, Dout>
{
    type OutDim = Dout;

    #[inline]
    fn in_ndim(&self) -> usize {
        SliceInfo::in_ndim(self)
    }

    #[inline]
    fn out_ndim(&self) -> usize {
        SliceInfo::out_ndim(self)
    }
}

impl<T: SliceElems, Din: FixedCount, Dout: crate::Dimension> SliceArg<IxDyn> for SliceInfo<T, Din, Dout> {
    type OutDim = Dout;

    #[inline]
    fn in_ndim(&self) -> usize {
        SliceInfo::in_ndim(self)
    }

    #[inline]
    fn out_ndim(&self) -> usize {
        SliceInfo::out_ndim(self)
    }
}

/// Bare elements, for any number of axes.
impl SliceArg<IxDyn> for &[SliceInfoElem] {
    type OutDim = IxDyn;

    #[inline]
    fn in_ndim(&self) -> usize {
        in_ndim_of(*self)
    }

    #[inline]
    fn out_ndim(&self) -> usize {
        out_ndim_of(*self)
    }
}
