//! Dimensions by the names of their types, and from all that lengths are written as.

use super::OUT_OF_MEMORY;
use crate::nd_base::{Axis, Dim, IxDyn, IxDynImpl, Lengths, axis_of, set_axis_of};
use crate::nd_dim::{IntoDimension, new_dim};
use alloc::vec::Vec;
use core::ops::{
    Bound, Deref, DerefMut, Index, IndexMut, Range, RangeFrom, RangeFull, RangeInclusive, RangeTo, RangeToInclusive,
};

/// A length or a coordinate. ndarray's `Ix`. Not proved.
pub type Ix = usize;

/// A stride, with its sign. ndarray's `Ixs`. Not proved.
pub type Ixs = isize;

/// A shape or an index of any number of axes. ndarray's `IxDyn(..)`. Not proved.
///
/// Takes time in proportion to the count of axes. `new_ixdyn` returns the error where this panics.
///
/// # Panics
///
/// Where an allocation fails; never for at most 4 axes.
///
/// ```
/// use ndarray_layout::{Dimension, IxDyn};
///
/// assert_eq!(IxDyn(&[5, 6, 3, 4]).size(), 360);
/// ```
///
/// A list of coordinates is an index too: `get(&index)` takes a vector, where a slice needs `get(&&index[..])`.
///
/// ```
/// use ndarray_layout::{IxDyn, LayoutError, OwnedArray};
///
/// # fn main() -> Result<(), LayoutError> {
/// let table = OwnedArray::from_shape_vec(IxDyn(&[2, 2]), vec![7, 8, 9, 10])?;
/// let index: Vec<usize> = "1 0".split(' ').filter_map(|word| word.parse().ok()).collect();
/// assert_eq!((table.get(&index), table[&index[..]]), (Some(9), 9));
/// # Ok(())
/// # }
/// ```
#[allow(non_snake_case)]
#[inline]
#[must_use]
pub fn IxDyn(lens: &[Ix]) -> IxDyn {
    Dim(lens)
}

/// The dimension of a list of lengths: a number, a tuple, an array, a slice, a vector or a dimension. ndarray's
/// `Dim(..)`. Not proved.
///
/// The type of the list fixes the count of axes, but a slice, a vector and an `IxDynImpl` become an `IxDyn`. Of those
/// only a slice of more than 4 lengths is copied into new memory. `new_dim` returns the error where this panics.
///
/// # Panics
///
/// Where an allocation fails.
///
/// ```
/// use ndarray_layout::{Dim, Ix2, IxDyn};
///
/// assert_eq!(Dim((3, 2)), Ix2(3, 2));
/// assert_eq!(Dim([3, 2]), Ix2(3, 2));
/// assert_eq!(Dim(vec![3, 2]), IxDyn(&[3, 2]));
/// ```
#[allow(non_snake_case)]
#[inline]
#[must_use]
pub fn Dim<T: IntoDimension>(lens: T) -> T::Dim {
    new_dim(lens).expect(OUT_OF_MEMORY)
}

/// The length of an axis by the axis. ndarray's `DimensionExt`. Not proved.
///
/// ```
/// use ndarray_layout::{Axis, DimensionExt, Ix2};
///
/// let mut shape = Ix2(3, 5);
/// shape.set_axis(Axis(0), 4);
/// assert_eq!((shape.axis(Axis(0)), shape.axis(Axis(1))), (4, 5));
/// ```
pub trait DimensionExt {
    /// The length of an axis.
    ///
    /// # Panics
    ///
    /// Where there is no such axis.
    #[must_use]
    fn axis(&self, axis: Axis) -> Ix;

    /// Replaces the length of an axis.
    ///
    /// # Panics
    ///
    /// Where there is no such axis.
    fn set_axis(&mut self, axis: Axis, value: Ix);
}

/// Not proved.
impl<D: Lengths> DimensionExt for D {
    fn axis(&self, axis: Axis) -> Ix {
        axis_of(self.slice(), axis)
    }

    fn set_axis(&mut self, axis: Axis, value: Ix) {
        set_axis_of(self.slice_mut(), axis, value);
    }
}

/// Not proved.
impl DimensionExt for [Ix] {
    fn axis(&self, axis: Axis) -> Ix {
        axis_of(self, axis)
    }

    fn set_axis(&mut self, axis: Axis, value: Ix) {
        set_axis_of(self, axis, value);
    }
}

/// Whether a dimension has the lengths of an array, or of an `IxDynImpl`. Not proved.
impl<I: PartialEq> PartialEq<I> for Dim<I> {
    fn eq(&self, other: &I) -> bool {
        self.index == *other
    }
}

/// One axis of length 0. Not proved.
impl Default for Dim<IxDynImpl> {
    fn default() -> Self {
        Dim::<IxDynImpl>::new(IxDynImpl::default())
    }
}

/// One length, 0. Not proved.
impl Default for IxDynImpl {
    fn default() -> Self {
        IxDynImpl::from(&[0][..])
    }
}

/// A copy in memory of its own. Panics where an allocation fails, never for at most 4 lengths. Not proved.
impl Clone for IxDynImpl {
    fn clone(&self) -> Self {
        IxDynImpl::from(self.as_slice())
    }
}

/// A copy of the lengths. Panics where an allocation fails, never for at most 4 lengths. Not proved.
impl From<&[Ix]> for IxDynImpl {
    fn from(lens: &[Ix]) -> Self {
        IxDynImpl::copy_from(lens).expect(OUT_OF_MEMORY)
    }
}

/// The lengths of a vector, in its memory. Not proved.
impl From<Vec<Ix>> for IxDynImpl {
    fn from(lens: Vec<Ix>) -> Self {
        IxDynImpl::from_vec(lens).expect(OUT_OF_MEMORY)
    }
}

/// Not proved.
impl Deref for IxDynImpl {
    type Target = [Ix];

    fn deref(&self) -> &[Ix] {
        self.as_slice()
    }
}

/// Not proved.
impl DerefMut for IxDynImpl {
    fn deref_mut(&mut self) -> &mut [Ix] {
        self.as_mut_slice()
    }
}

/// Indexing by ranges. The layer's sources have that by a number.
macro_rules! index_by {
    ($($range:ty),*) => {$(
        /// Not proved.
        impl Index<$range> for IxDynImpl {
            type Output = [Ix];

            fn index(&self, range: $range) -> &[Ix] {
                &self.as_slice()[range]
            }
        }

        /// Not proved.
        impl IndexMut<$range> for IxDynImpl {
            fn index_mut(&mut self, range: $range) -> &mut [Ix] {
                &mut self.as_mut_slice()[range]
            }
        }
    )*};
}

index_by!(Range<Ix>, RangeFrom<Ix>, RangeFull, RangeInclusive<Ix>, RangeTo<Ix>, RangeToInclusive<Ix>);
index_by!((Bound<Ix>, Bound<Ix>));
