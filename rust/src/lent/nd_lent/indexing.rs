// Made by `rust/erase` of `crates/nd_lent/src/indexing.rt`: edit that.
//! The item of an index that the caller shows to be one of the shape.

use crate::lent::nd_lent::array_view::ArrayView;
use crate::lent::nd_lent::array_view_mut::ArrayViewMut;
use crate::ndarray_layout::{Lengths, NdIndex};
use core::ops::Index;

/// The item of an index, which the caller ensures to be one of the shape; `get` is for any other.
///
/// `a[0]` is 8, and `a[1]` is 7. ndarray's `index`, which panics past the shape.
///
/// # Panics
///
/// Where there is no such index.
impl<T, D: Lengths, I: NdIndex<D> + Sized> Index<I> for ArrayView<'_, T, D> {
    type Output = T;

    #[inline]
    #[track_caller]
    fn index(&self, index: I) -> &T {
        match self.get(&index) {
            Some(item) => item,
            None => crate::arrays::no_such_index(index, self.dim()),
        }
    }
}

/// The item of an index, which the caller ensures to be one of the shape; `get` is for any other.
///
/// `a[0]` is 8, and `a[1]` is 7. ndarray's `index`, which panics past the shape.
///
/// # Panics
///
/// Where there is no such index.
impl<T: Sized, D: Lengths, I: NdIndex<D> + Sized> Index<I> for ArrayViewMut<'_, T, D> {
    type Output = T;

    #[inline]
    #[track_caller]
    fn index(&self, index: I) -> &T {
        match self.get(&index) {
            Some(item) => item,
            None => crate::arrays::no_such_index(index, self.dim()),
        }
    }
}
