//! The calls of the package's dimensions by the signatures of ndarray.

use super::{Dimension, RemoveAxis, or_panic};
use crate::{Axis, FixedCount, Ix, Lengths, Shape};

/// The calls of the package by these names, and what makes of their results those that are returned. (Those of the bound
/// `crate::Dimension` come before those of the trait here.)
macro_rules! forward {
    ($(fn $name:ident(&self $(, $arg:ident: $type:ty)*) -> $result:ty $(=> $make:ident)?;)*) => {$(
        #[inline]
        fn $name(&self $(, $arg: $type)*) -> $result {
            $($make)?(self.proved().$name($($arg),*))
        }
    )*};
}

/// Not proved.
impl<D: crate::Dimension> Dimension for D {
    const NDIM: Option<usize> = <D as FixedCount>::NDIM;

    type Pattern = D::Pattern;

    type Smaller = D::Smaller;

    type Larger = D::Larger;

    type Proved = D;

    #[inline]
    fn proved(&self) -> &D {
        self
    }

    #[inline]
    fn proved_mut(&mut self) -> &mut D {
        self
    }

    #[inline]
    fn into_proved(self) -> D {
        self
    }

    #[inline]
    fn of_proved(proved: D) -> D {
        proved
    }

    #[inline]
    fn in_order(self, is_f: bool) -> Shape<D> {
        or_panic(crate::ShapeBuilder::set_f(self, is_f))
    }

    forward! {
        fn ndim(&self) -> usize;
        fn size(&self) -> usize;
        fn size_checked(&self) -> Option<usize>;
        fn slice(&self) -> &[Ix];
        fn equal(&self, other: &D) -> bool;
        fn default_strides(&self) -> D => or_panic;
        fn fortran_strides(&self) -> D => or_panic;
        fn first_index(&self) -> Option<D> => or_panic;
        fn next_for(&self, index: D) -> Option<D>;
        fn next_for_f(&self, index: &mut D) -> bool;
        fn stride_offset_checked(&self, strides: &D, index: &D) -> Option<isize>;
        fn last_elem(&self) -> usize;
        fn _fastest_varying_stride_order(&self) -> D => or_panic;
    }

    #[inline]
    #[track_caller]
    fn insert_axis(&self, axis: Axis) -> D::Larger {
        assert!(axis.index() <= Lengths::ndim(self), "an axis is inserted past the last one");
        or_panic(crate::Dimension::insert_axis(self, axis))
    }

    #[inline]
    #[track_caller]
    fn try_remove_axis(&self, axis: Axis) -> D::Smaller {
        assert!(Lengths::ndim(self) == 0 || axis.index() < Lengths::ndim(self), "there is no such axis");
        or_panic(crate::Dimension::try_remove_axis(self, axis))
    }
}

/// Not proved.
impl<D: crate::RemoveAxis> RemoveAxis for D {
    #[inline]
    #[track_caller]
    fn remove_axis(&self, axis: Axis) -> D::Smaller {
        assert!(axis.index() < Lengths::ndim(self), "there is no such axis");
        or_panic(crate::RemoveAxis::remove_axis(self, axis))
    }
}
