//! Several slices of one array as one argument.

use crate::ArrayViewMut;
use crate::nd_base::{LayoutError, Lengths};
use crate::nd_slice::SliceArg;
use crate::sealed::Sealed;
use alloc::vec::Vec;

/// Several slices of an array of a dimension type: a tuple of two to six slices, each of a type of its own; or an array, a slice
/// or a vector of slices of one type. ndarray's `MultiSliceArg`. Not proved.
///
/// Sealed: no type outside this package implements it.
pub trait MultiSliceArg<D: Lengths>: Sealed {
    /// The parts that the slices pick: a tuple, an array or a vector, as the slices are.
    type Parts<'a, T: 'a>;

    /// The parts that these slices pick of an array.
    ///
    /// # Errors
    ///
    /// Those of `ArrayViewMut::multi_slice_mut`.
    #[doc(hidden)]
    fn lend<'a, T>(&self, part: ArrayViewMut<'a, T, D>) -> Result<Self::Parts<'a, T>, LayoutError>;
}

/// Not proved.
impl<D: Lengths, S: SliceArg<D>> MultiSliceArg<D> for [S] {
    type Parts<'a, T: 'a> = Vec<ArrayViewMut<'a, T, S::OutDim>>;

    fn lend<'a, T>(&self, part: ArrayViewMut<'a, T, D>) -> Result<Self::Parts<'a, T>, LayoutError> {
        part.multi_slice_move(self)
    }
}

/// Not proved.
impl<D: Lengths, S: SliceArg<D>> MultiSliceArg<D> for Vec<S> {
    type Parts<'a, T: 'a> = Vec<ArrayViewMut<'a, T, S::OutDim>>;

    fn lend<'a, T>(&self, part: ArrayViewMut<'a, T, D>) -> Result<Self::Parts<'a, T>, LayoutError> {
        self.as_slice().lend(part)
    }
}

/// Not proved.
impl<D: Lengths, S: SliceArg<D>, const N: usize> MultiSliceArg<D> for [S; N] {
    type Parts<'a, T: 'a> = [ArrayViewMut<'a, T, S::OutDim>; N];

    fn lend<'a, T>(&self, part: ArrayViewMut<'a, T, D>) -> Result<Self::Parts<'a, T>, LayoutError> {
        let parts = self.as_slice().lend(part)?;
        Ok(parts.try_into().unwrap_or_else(|_| unreachable!("each slice has a part")))
    }
}

/// Not proved.
impl<D: Lengths, M: MultiSliceArg<D> + ?Sized> MultiSliceArg<D> for &M {
    type Parts<'a, T: 'a> = M::Parts<'a, T>;

    fn lend<'a, T>(&self, part: ArrayViewMut<'a, T, D>) -> Result<Self::Parts<'a, T>, LayoutError> {
        M::lend(self, part)
    }
}

/// Tuples of slices.
macro_rules! tuples {
    ($($($slice:ident $at:tt),*;)*) => {$(
        /// Not proved.
        impl<D: Lengths, $($slice: SliceArg<D>),*> MultiSliceArg<D> for ($($slice,)*) {
            type Parts<'a, T: 'a> = ($(ArrayViewMut<'a, T, $slice::OutDim>,)*);

            fn lend<'a, T>(&self, part: ArrayViewMut<'a, T, D>) -> Result<Self::Parts<'a, T>, LayoutError> {
                let slices = [$(self.$at.elems()),*];
                let mut parts = part.slice_parts(&slices)?;
                Ok(($(parts.try_next::<$slice::OutDim>()?.unwrap_or_else(|| unreachable!("each slice has a part")),)*))
            }
        }
    )*};
}

tuples! {
    A 0, B 1;
    A 0, B 1, C 2;
    A 0, B 1, C 2, E 3;
    A 0, B 1, C 2, E 3, F 4;
    A 0, B 1, C 2, E 3, F 4, G 5;
}
