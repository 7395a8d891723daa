//! Slice arguments for the shapes of a type, by the signatures of ndarray.

use super::Dimension;
use crate::{FixedCount, SliceElems, SliceInfo, SliceInfoElem};

/// A slice argument for shapes of a type. ndarray's `SliceArg`. Not proved.
///
/// ```
/// use ndarray_layout::compat::{Dimension, Ix3, SliceArg, s};
///
/// /// How many axes a slice leaves of a shape.
/// fn axes_after<D: Dimension>(_shape: &D, slices: impl SliceArg<D>) -> usize {
///     slices.out_ndim()
/// }
///
/// assert_eq!(axes_after(&Ix3(4, 5, 6), s![1, .., 2..;2]), 2);
/// ```
pub trait SliceArg<D: Dimension>: AsRef<[SliceInfoElem]> {
    /// The dimension type of the shape after.
    type OutDim: Dimension;

    /// The number of axes of the shape before. ndarray's `in_ndim`.
    #[inline]
    fn in_ndim(&self) -> usize {
        D::NDIM.unwrap_or_else(|| crate::in_ndim_of(self.as_ref()))
    }

    /// The number of axes of the shape after. ndarray's `out_ndim`.
    #[inline]
    fn out_ndim(&self) -> usize {
        Self::OutDim::NDIM.unwrap_or_else(|| crate::out_ndim_of(self.as_ref()))
    }
}

/// Not proved.
impl<D: crate::Dimension, T: SliceElems, Din: FixedCount, Dout: FixedCount> SliceArg<D> for SliceInfo<T, Din, Dout>
where
    Self: crate::SliceArg<D, OutDim: Dimension>,
{
    type OutDim = <Self as crate::SliceArg<D>>::OutDim;
}

/// Not proved.
impl<D: crate::Dimension> SliceArg<D> for [SliceInfoElem]
where
    Self: crate::SliceArg<D, OutDim: Dimension>,
{
    type OutDim = <Self as crate::SliceArg<D>>::OutDim;
}

/// Not proved.
impl<D: Dimension, T: SliceArg<D> + ?Sized> SliceArg<D> for &T {
    type OutDim = T::OutDim;
}
