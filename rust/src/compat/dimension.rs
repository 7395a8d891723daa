//! What a shape and an index can do, whatever their type, by the signatures of ndarray.

use super::{DimAdd, DimMax, IntoDimension, NdIndex, or_panic};
use crate::sealed::Sealed;
use crate::{ArrayView, ArrayView1, ArrayViewMut, ArrayViewMut1, Axis, Ix, Ix0, Ix1, IxDyn, Lengths, Shape};
use core::fmt::Debug;
use core::ops::{Add, AddAssign, IndexMut, Mul, MulAssign, Sub, SubAssign};

/// A shape, an index, or a list of strides: one number for each axis. ndarray's `Dimension`. Not proved.
///
/// Sealed: no type outside this package implements it.
///
/// ```
/// use ndarray_layout::compat::{Axis, Dimension, Ix2, IxDyn};
///
/// /// The shape of a picture that is turned upside down and has an axis for colors.
/// fn colored<D: Dimension>(shape: &D, colors: usize) -> D::Larger {
///     let mut colored = shape.insert_axis(Axis(0));
///     colored[0] = colors;
///     colored
/// }
///
/// assert_eq!(colored(&Ix2(4, 5), 3).slice(), [3, 4, 5]);
/// assert_eq!(colored(&IxDyn(&[]), 3).into_pattern(), IxDyn(&[3]));
/// ```
pub trait Dimension:
    Clone
    + Eq
    + Debug
    + Send
    + Sync
    + Default
    + IndexMut<usize, Output = usize>
    + Add<Self, Output = Self>
    + AddAssign
    + for<'x> AddAssign<&'x Self>
    + Sub<Self, Output = Self>
    + SubAssign
    + for<'x> SubAssign<&'x Self>
    + Mul<usize, Output = Self>
    + Mul<Self, Output = Self>
    + MulAssign
    + for<'x> MulAssign<&'x Self>
    + MulAssign<usize>
    + IntoDimension<Dim = Self>
    + NdIndex<Self>
    + DimMax<Ix0, Output = Self>
    + DimMax<Self, Output = Self>
    + DimMax<IxDyn, Output = IxDyn>
    + DimMax<<Self as Dimension>::Smaller, Output = Self>
    + DimMax<<Self as Dimension>::Larger, Output = <Self as Dimension>::Larger>
    + DimAdd<Self>
    + DimAdd<<Self as Dimension>::Smaller>
    + DimAdd<<Self as Dimension>::Larger>
    + DimAdd<Ix0, Output = Self>
    + DimAdd<Ix1, Output = <Self as Dimension>::Larger>
    + DimAdd<IxDyn, Output = IxDyn>
    + crate::DimensionExt
    + Sealed
{
    /// The count of axes, or `None` where values of the type may differ in it. ndarray's `NDIM`.
    const NDIM: Option<usize>;

    /// A number, a tuple or the dimension itself: the form that a pattern takes apart. ndarray's `Pattern`.
    type Pattern: IntoDimension<Dim = Self> + Clone + Debug + PartialEq + Eq + Default;

    /// The type of one axis less, where there is one. ndarray's `Smaller`.
    type Smaller: Dimension;

    /// The type of one axis more. ndarray's `Larger`.
    type Larger: Dimension + RemoveAxis;

    /// The same type, as the calls of the package know it.
    #[doc(hidden)]
    type Proved: crate::Dimension<Pattern = Self::Pattern>;

    #[doc(hidden)]
    fn proved(&self) -> &Self::Proved;

    #[doc(hidden)]
    fn proved_mut(&mut self) -> &mut Self::Proved;

    #[doc(hidden)]
    fn into_proved(self) -> Self::Proved;

    #[doc(hidden)]
    fn of_proved(proved: Self::Proved) -> Self;

    #[doc(hidden)]
    fn in_order(self, is_f: bool) -> Shape<Self>;

    /// The number of axes. ndarray's `ndim`.
    ///
    /// ```
    /// use ndarray_layout::compat::{Dimension, IxDyn};
    ///
    /// assert_eq!(IxDyn(&[4, 5, 6]).ndim(), 3);
    /// ```
    fn ndim(&self) -> usize;

    /// The same list in the form that a pattern takes apart. ndarray's `into_pattern`.
    ///
    /// ```
    /// use ndarray_layout::compat::{Dimension, Ix2};
    ///
    /// let (rows, columns) = Ix2(4, 5).into_pattern();
    /// assert_eq!((rows, columns), (4, 5));
    /// ```
    #[inline]
    fn into_pattern(self) -> Self::Pattern {
        crate::Dimension::into_pattern(self.into_proved())
    }

    /// The product of all lengths. ndarray's `size`.
    ///
    /// # Panics
    ///
    /// Where it passes `usize`, with overflow checks.
    ///
    /// ```
    /// use ndarray_layout::compat::{Dimension, Ix3};
    ///
    /// assert_eq!(Ix3(2, 3, 4).size(), 24);
    /// ```
    fn size(&self) -> usize;

    /// The product of all lengths, where it fits `usize`. ndarray's `size_checked`.
    ///
    /// ```
    /// use ndarray_layout::compat::{Dimension, Ix2};
    ///
    /// assert_eq!(Ix2(2, 3).size_checked(), Some(6));
    /// assert_eq!(Ix2(1 << 32, 1 << 32).size_checked(), None);
    /// ```
    fn size_checked(&self) -> Option<usize>;

    /// The lengths, in order. ndarray's `slice`.
    ///
    /// ```
    /// use ndarray_layout::compat::{Dimension, Ix2};
    ///
    /// assert_eq!(Ix2(4, 5).slice(), [4, 5]);
    /// ```
    fn slice(&self) -> &[Ix];

    /// The lengths, to be written. ndarray's `slice_mut`.
    ///
    /// ```
    /// use ndarray_layout::compat::{Dimension, Ix2};
    ///
    /// let mut shape = Ix2(4, 5);
    /// shape.slice_mut().reverse();
    /// assert_eq!(shape, Ix2(5, 4));
    /// ```
    #[inline]
    fn slice_mut(&mut self) -> &mut [Ix] {
        Lengths::slice_mut(self.proved_mut())
    }

    /// The lengths as a view. ndarray's `as_array_view`.
    ///
    /// ```
    /// use ndarray_layout::compat::{Dimension, Ix3};
    ///
    /// assert_eq!(Ix3(4, 5, 6).as_array_view().iter().sum::<usize>(), 15);
    /// ```
    fn as_array_view(&self) -> ArrayView1<'_, Ix> {
        ArrayView::from(self.slice())
    }

    /// The lengths as a view, to be written. ndarray's `as_array_view_mut`.
    ///
    /// ```
    /// use ndarray_layout::compat::{Dimension, Ix3};
    ///
    /// let mut shape = Ix3(4, 5, 6);
    /// shape.as_array_view_mut().fill(2);
    /// assert_eq!(shape, Ix3(2, 2, 2));
    /// ```
    fn as_array_view_mut(&mut self) -> ArrayViewMut1<'_, Ix> {
        ArrayViewMut::from(self.slice_mut())
    }

    /// Whether both have the same lengths. ndarray's `equal`.
    ///
    /// ```
    /// use ndarray_layout::compat::{Dimension, IxDyn};
    ///
    /// assert!(!IxDyn(&[1, 2]).equal(&IxDyn(&[1, 2, 1])));
    /// ```
    fn equal(&self, other: &Self) -> bool;

    /// The strides of row-major order. ndarray's `default_strides`.
    ///
    /// # Panics
    ///
    /// Where the size passes `usize`, with overflow checks, and where an allocation fails.
    ///
    /// ```
    /// use ndarray_layout::compat::{Dimension, Ix3};
    ///
    /// assert_eq!(Ix3(2, 3, 4).default_strides(), Ix3(12, 4, 1));
    /// ```
    fn default_strides(&self) -> Self;

    /// The strides of column-major order. ndarray's `fortran_strides`.
    ///
    /// # Panics
    ///
    /// Where the size passes `usize`, with overflow checks, and where an allocation fails.
    ///
    /// ```
    /// use ndarray_layout::compat::{Dimension, Ix3};
    ///
    /// assert_eq!(Ix3(2, 3, 4).fortran_strides(), Ix3(1, 2, 6));
    /// ```
    fn fortran_strides(&self) -> Self;

    /// So many zeros. ndarray's `zeros`.
    ///
    /// # Panics
    ///
    /// Where the type has another count of axes, and where an allocation fails.
    ///
    /// ```
    /// use ndarray_layout::compat::{Dimension, Ix2};
    ///
    /// assert_eq!(Ix2::zeros(2), Ix2(0, 0));
    /// ```
    #[inline]
    #[track_caller]
    fn zeros(ndim: usize) -> Self {
        assert!(Self::NDIM.is_none_or(|count| count == ndim), "the type has another count of axes");
        Self::of_proved(or_panic(Lengths::zeros(ndim)))
    }

    /// The first index, of zeros, where no length is 0. ndarray's `first_index`.
    ///
    /// # Panics
    ///
    /// Where an allocation fails.
    ///
    /// ```
    /// use ndarray_layout::compat::{Dimension, Ix2};
    ///
    /// assert_eq!((Ix2(4, 5).first_index(), Ix2(4, 0).first_index()), (Some(Ix2(0, 0)), None));
    /// ```
    fn first_index(&self) -> Option<Self>;

    /// The index after one, in row-major order. ndarray's `next_for`.
    ///
    /// ```
    /// use ndarray_layout::compat::{Dimension, Ix2};
    ///
    /// let shape = Ix2(2, 3);
    /// assert_eq!((shape.next_for(Ix2(0, 2)), shape.next_for(Ix2(1, 2))), (Some(Ix2(1, 0)), None));
    /// ```
    fn next_for(&self, index: Self) -> Option<Self>;

    /// Makes an index the next one in column-major order, and returns whether there is one. ndarray's `next_for_f`.
    ///
    /// ```
    /// use ndarray_layout::compat::{Dimension, Ix2};
    ///
    /// let mut index = Ix2(1, 0);
    /// assert!(Ix2(2, 3).next_for_f(&mut index));
    /// assert_eq!(index, Ix2(0, 1));
    /// ```
    fn next_for_f(&self, index: &mut Self) -> bool;

    /// Whether two lists of strides agree on each axis of length greater than 1. ndarray's `strides_equivalent`.
    ///
    /// ```
    /// use ndarray_layout::compat::{Dimension, Ix2};
    ///
    /// assert!(Ix2(1, 5).strides_equivalent(&Ix2(5, 1), &Ix2(9, 1)));
    /// ```
    #[inline]
    fn strides_equivalent<D: Dimension>(&self, strides: &Self, others: &D) -> bool {
        crate::Dimension::strides_equivalent(self.proved(), strides.proved(), others.proved())
    }

    /// The offset of an index from the first one. ndarray's `stride_offset`.
    ///
    /// # Panics
    ///
    /// Where a number passes `isize`, with overflow checks.
    ///
    /// ```
    /// use ndarray_layout::compat::{Dimension, Ix2};
    ///
    /// assert_eq!(Ix2::stride_offset(&Ix2(1, 2), &Ix2(5, 1)), 7);
    /// ```
    #[inline]
    fn stride_offset(index: &Self, strides: &Self) -> isize {
        crate::Dimension::stride_offset(index.proved(), strides.proved())
    }

    /// The offset of an index from the first one, where it is one. ndarray's `stride_offset_checked`.
    ///
    /// ```
    /// use ndarray_layout::compat::{Dimension, Ix2};
    ///
    /// let offset = |index| Ix2(4, 5).stride_offset_checked(&Ix2(5, 1), &index);
    /// assert_eq!((offset(Ix2(1, 2)), offset(Ix2(1, 5))), (Some(7), None));
    /// ```
    fn stride_offset_checked(&self, strides: &Self, index: &Self) -> Option<isize>;

    /// The length of the last axis, or 0. ndarray's `last_elem`.
    ///
    /// ```
    /// use ndarray_layout::compat::{Dimension, Ix0, Ix2};
    ///
    /// assert_eq!((Ix2(4, 5).last_elem(), Ix0().last_elem()), (5, 0));
    /// ```
    fn last_elem(&self) -> usize;

    /// Replaces the length of the last axis. ndarray's `set_last_elem`.
    ///
    /// # Panics
    ///
    /// Where there is no axis.
    ///
    /// ```
    /// use ndarray_layout::compat::{Dimension, Ix2};
    ///
    /// let mut shape = Ix2(4, 5);
    /// shape.set_last_elem(6);
    /// assert_eq!(shape, Ix2(4, 6));
    /// ```
    #[inline]
    #[track_caller]
    fn set_last_elem(&mut self, len: usize) {
        assert!(self.ndim() > 0, "there is no axis");
        crate::Dimension::set_last_elem(self.proved_mut(), len);
    }

    /// Whether a layout has no gaps between its elements. ndarray's `is_contiguous`.
    ///
    /// ```
    /// use ndarray_layout::compat::{Dimension, Ix2};
    ///
    /// assert!(Ix2::is_contiguous(&Ix2(2, 3), &Ix2(1, 2)) && !Ix2::is_contiguous(&Ix2(2, 3), &Ix2(4, 1)));
    /// ```
    #[inline]
    fn is_contiguous(dim: &Self, strides: &Self) -> bool {
        crate::Dimension::is_contiguous(dim.proved(), strides.proved())
    }

    /// The axes by rising magnitude of their strides. ndarray's `_fastest_varying_stride_order`.
    ///
    /// # Panics
    ///
    /// Where an allocation fails.
    ///
    /// ```
    /// use ndarray_layout::compat::{Dimension, Ix3};
    ///
    /// assert_eq!(Ix3(4, 12, 1)._fastest_varying_stride_order(), Ix3(2, 0, 1));
    /// ```
    fn _fastest_varying_stride_order(&self) -> Self;

    /// The axis with the stride of least magnitude, of those of length greater than 1. ndarray's `min_stride_axis`.
    ///
    /// # Panics
    ///
    /// Where there is no axis.
    ///
    /// ```
    /// use ndarray_layout::compat::{Axis, Dimension, Ix2};
    ///
    /// assert_eq!(Ix2(4, 5).min_stride_axis(&Ix2(1, 4)), Axis(0));
    /// ```
    #[inline]
    #[track_caller]
    fn min_stride_axis(&self, strides: &Self) -> Axis {
        assert!(self.ndim() > 0, "there is no axis");
        crate::Dimension::min_stride_axis(self.proved(), strides.proved())
    }

    /// The axis with the stride of greatest magnitude, of those of length greater than 1. ndarray's `max_stride_axis`.
    ///
    /// # Panics
    ///
    /// Where there is no axis.
    ///
    /// ```
    /// use ndarray_layout::compat::{Axis, Dimension, Ix2};
    ///
    /// assert_eq!(Ix2(4, 5).max_stride_axis(&Ix2(1, 4)), Axis(1));
    /// ```
    #[inline]
    #[track_caller]
    fn max_stride_axis(&self, strides: &Self) -> Axis {
        assert!(self.ndim() > 0, "there is no axis");
        crate::Dimension::max_stride_axis(self.proved(), strides.proved())
    }

    /// The same list, as a dimension of any number of axes. ndarray's `into_dyn`.
    ///
    /// # Panics
    ///
    /// Where an allocation fails.
    ///
    /// ```
    /// use ndarray_layout::compat::{Dimension, Ix2, IxDyn};
    ///
    /// assert_eq!(Ix2(4, 5).into_dyn(), IxDyn(&[4, 5]));
    /// ```
    #[inline]
    fn into_dyn(self) -> IxDyn {
        or_panic(crate::Dimension::into_dyn(self.into_proved()))
    }

    /// The same list, where the type has its count of axes. ndarray's `from_dimension`.
    ///
    /// # Panics
    ///
    /// Where an allocation fails.
    ///
    /// ```
    /// use ndarray_layout::compat::{Dimension, Ix1, Ix2, IxDyn};
    ///
    /// let shape = IxDyn(&[4, 5]);
    /// assert_eq!((Ix2::from_dimension(&shape), Ix1::from_dimension(&shape)), (Some(Ix2(4, 5)), None));
    /// ```
    #[inline]
    fn from_dimension<D: Dimension>(dim: &D) -> Option<Self> {
        or_panic(crate::Dimension::from_dimension(dim.proved())).map(Self::of_proved)
    }

    /// The list with an axis of length 1 more. ndarray's `insert_axis`.
    ///
    /// # Panics
    ///
    /// Where the axis is greater than the count of axes, and where an allocation fails.
    ///
    /// ```
    /// use ndarray_layout::compat::{Axis, Dimension, Ix2, Ix3};
    ///
    /// assert_eq!(Ix2(4, 5).insert_axis(Axis(1)), Ix3(4, 1, 5));
    /// ```
    fn insert_axis(&self, axis: Axis) -> Self::Larger;

    /// The list without an axis, or the empty list. ndarray's `try_remove_axis`.
    ///
    /// # Panics
    ///
    /// Where there are axes and this one is missing, and where an allocation fails.
    ///
    /// ```
    /// use ndarray_layout::compat::{Axis, Dimension, Ix0, Ix1, Ix2};
    ///
    /// assert_eq!((Ix2(4, 5).try_remove_axis(Axis(0)), Ix0().try_remove_axis(Axis(0))), (Ix1(5), Ix0()));
    /// ```
    fn try_remove_axis(&self, axis: Axis) -> Self::Smaller;
}

/// A dimension of at least one axis, or of any number. ndarray's `RemoveAxis`. Not proved.
pub trait RemoveAxis: Dimension {
    /// The list without an axis. ndarray's `remove_axis`.
    ///
    /// # Panics
    ///
    /// Where there is no such axis, and where an allocation fails.
    ///
    /// ```
    /// use ndarray_layout::compat::{Axis, Ix3, Ix2, RemoveAxis};
    ///
    /// assert_eq!(Ix3(4, 5, 6).remove_axis(Axis(1)), Ix2(4, 6));
    /// ```
    fn remove_axis(&self, axis: Axis) -> Self::Smaller;
}
