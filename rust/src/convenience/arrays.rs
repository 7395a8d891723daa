//! Arrays as values that are copied, made by default, iterated over and indexed.

use super::OUT_OF_MEMORY;
use crate::arrays::{fitting, no_such_index};
use crate::memory::{FallibleSlice, FallibleVec};
use crate::nd_base::{Dim, ErrorKind, LayoutError, Lengths, from_kind};
use crate::nd_dim::product;
use crate::nd_shape::{NdIndex, StrideShape, Strides};
use crate::{ArrayView, Items, OwnedArray};
use alloc::vec::Vec;
use core::ops::{Index, IndexMut};

impl<T, D: Lengths> OwnedArray<T, D> {
    /// The array of a shape and of as many items as it has indices: `from_shape_vec`, whose items may be more, and whose error gives
    /// them back. ndarray's `from_shape_vec`. Not proved.
    ///
    /// # Errors
    ///
    /// Those of `from_shape_vec`; then `IncompatibleShape` where there are more items, unless the strides are given. The items are
    /// dropped.
    ///
    /// ```
    /// use ndarray_layout::{Ix2, OwnedArray};
    /// use std::error::Error;
    ///
    /// fn table(items: Vec<u8>) -> Result<OwnedArray<u8, Ix2>, Box<dyn Error>> {
    ///     Ok(OwnedArray::from_exact_vec(Ix2(2, 2), items)?)
    /// }
    ///
    /// assert_eq!(table(vec![7, 8, 9, 10]).unwrap()[(1, 0)], 9);
    /// assert!(table(vec![7; 3]).is_err() && table(vec![7; 5]).is_err());
    /// ```
    pub fn from_exact_vec(shape: impl Into<StrideShape<D>>, items: Vec<T>) -> Result<Self, LayoutError> {
        let (shape, count) = (shape.into(), items.len());
        let may_be_more = shape.strides.is_custom();
        let array = Self::from_shape_vec(shape, items)?;
        (may_be_more || array.len() == count).then_some(array).ok_or(from_kind(ErrorKind::IncompatibleShape).into())
    }
}

/// The array of one or two axes of items between brackets. ndarray's `array!`. The macro `vec!` has to be in scope. Not proved.
///
/// ```
/// use ndarray_layout::{LayoutError, array};
///
/// # fn main() -> Result<(), LayoutError> {
/// let table = array![[1, 2, 3], [4, 5, 6]];
/// assert_eq!((table.nrows(), table[(1, 0)], array![7, 8].len()), (2, 4, 2));
/// # Ok(())
/// # }
/// ```
#[macro_export]
macro_rules! array {
    ($([$($item:expr),* $(,)?]),+ $(,)?) => { $crate::OwnedArray::<_, $crate::Ix2>::from(vec![$([$($item),*]),+]) };
    ($($item:expr),* $(,)?) => { $crate::OwnedArray::<_, $crate::Ix1>::from(vec![$($item),*]) };
}

/// A copy with the same layout and items, spare ones too. Not proved.
///
/// # Panics
///
/// Where an allocation fails.
///
/// ```
/// use ndarray_layout::{Ix1, LayoutError, OwnedArray};
///
/// # fn main() -> Result<(), LayoutError> {
/// let words = OwnedArray::from_shape_vec(Ix1(2), vec!["a".to_string(), "b".to_string()])?;
/// assert_eq!(words.clone(), words);
/// # Ok(())
/// # }
/// ```
impl<T: Clone, D: Lengths> Clone for OwnedArray<T, D> {
    fn clone(&self) -> Self {
        let shape = StrideShape { dim: self.dim().clone(), strides: Strides::Custom(self.strided().strides().clone()) };
        fitting(Self::from_exact_vec(shape, self.stored().fallible_to_vec().expect(OUT_OF_MEMORY)))
    }
}

/// The array of the default shape: no item where there is an axis, and else one. ndarray's `Default`. Not proved.
///
/// # Panics
///
/// Where an allocation fails; never for an array without items.
///
/// ```
/// use ndarray_layout::{Ix0, Ix2, OwnedArray};
///
/// assert_eq!(OwnedArray::<u8, Ix2>::default().len(), 0);
/// assert_eq!(OwnedArray::<u8, Ix0>::default()[()], 0);
/// ```
impl<T: Default, D: Lengths + Default> Default for OwnedArray<T, D> {
    fn default() -> Self {
        let dim = D::default();
        let count = product(dim.slice());
        let mut items = Vec::fallible_with_capacity(count).expect(OUT_OF_MEMORY);
        items.resize_with(count, T::default);
        fitting(Self::from_exact_vec(StrideShape { dim, strides: Strides::C }, items))
    }
}

/// The array over the same items. Not proved.
///
/// # Panics
///
/// Where an allocation fails; never for at most 4 axes.
///
/// ```
/// use ndarray_layout::{ArrayView, Ix2, LayoutError};
///
/// # fn main() -> Result<(), LayoutError> {
/// let square = ArrayView::from_shape(Ix2(2, 2), &[1, 2, 3, 4])?;
/// let turned = square.reversed_axes(); // `square` is copied
/// assert_eq!((square[(0, 1)], turned[(0, 1)]), (2, 3));
/// # Ok(())
/// # }
/// ```
impl<T, D: Lengths> Clone for ArrayView<'_, T, D> {
    fn clone(&self) -> Self {
        self.duplicate().expect(OUT_OF_MEMORY)
    }
}

/// Not proved.
impl<T, const N: usize> Copy for ArrayView<'_, T, Dim<[usize; N]>> {}

/// Iterates over copies of the items of all indices, in row-major order. Not proved.
impl<'a, T: Copy, D: Lengths> IntoIterator for &'a OwnedArray<T, D> {
    type Item = T;

    type IntoIter = Items<'a, T>;

    fn into_iter(self) -> Items<'a, T> {
        self.iter()
    }
}

/// The item of an index. Not proved.
///
/// # Panics
///
/// Where it is no index of the shape; the message has both. `get` returns `None`.
impl<T, D: Lengths, I: NdIndex<D>> Index<I> for OwnedArray<T, D> {
    type Output = T;

    #[inline]
    #[track_caller]
    fn index(&self, index: I) -> &T {
        match self.try_item(&index) {
            Ok(item) => item,
            // (of a copy: a loop keeps the shape in registers where no other call is told where it lies)
            Err(_) => no_such_index(index, &self.dim().duplicate().expect(OUT_OF_MEMORY)),
        }
    }
}

/// The item of an index, to be written. Not proved.
///
/// # Panics
///
/// Where it is no index of the shape; the message has both. `get_mut` returns `None`.
impl<T, D: Lengths, I: NdIndex<D>> IndexMut<I> for OwnedArray<T, D> {
    #[inline]
    #[track_caller]
    fn index_mut(&mut self, index: I) -> &mut T {
        if self.strided().place(&index).is_none() {
            // (of a copy, as `index`)
            no_such_index(index, &self.dim().duplicate().expect(OUT_OF_MEMORY));
        }
        match self.try_item_mut(&index) {
            Ok(item) => item,
            Err(_) => unreachable!("an index of the shape"),
        }
    }
}
