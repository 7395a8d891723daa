//! Arrays and views by what their layouts say: their indices, and the orders in which they can be iterated over.

use super::{Dimension, indices};
use crate::{ArrayView, ArrayViewMut, Indices, Layout, OwnedArray, Strided};

/// In which orders a layout can be iterated over. ndarray's `array_layout`. Not proved.
///
/// One that is in row-major or column-major order without gaps is `C` or `F`, and both where at most one axis is longer
/// than 1. Any other prefers an order where the stride of its outermost or innermost axis is 1.
///
/// ```
/// use ndarray_layout::compat::{Ix2, Layout, array_layout};
///
/// assert!(array_layout(&Ix2(4, 5), &Ix2(5, 1)).is(Layout::CORDER));
/// let rows_apart = array_layout(&Ix2(4, 5), &Ix2(10, 1));
/// assert!(rows_apart.is(Layout::CPREFER) && !rows_apart.is(Layout::CORDER));
/// ```
#[inline]
#[must_use]
pub fn array_layout<D: Dimension>(dim: &D, strides: &D) -> Layout {
    crate::convenience::layout_of(dim.proved(), strides.proved())
}

/// What has a shape, and orders in which it can be iterated over. ndarray's `NdProducer`, without its pointers.
/// Not proved.
pub trait NdProducer {
    /// The dimension type of the shape.
    type Dim: Dimension;

    /// The shape. ndarray's `raw_dim`.
    ///
    /// # Panics
    ///
    /// Where an allocation fails.
    ///
    /// ```
    /// use ndarray_layout::compat::{ArrayView, Ix2, NdProducer, ShapeBuilder};
    ///
    /// let view = ArrayView::from_shape((2, 3).f(), &[0, 1, 2, 3, 4, 5]).unwrap();
    /// assert_eq!(view.raw_dim(), Ix2(2, 3));
    /// ```
    fn raw_dim(&self) -> Self::Dim;

    /// The orders in which it can be iterated over. ndarray's `layout`.
    ///
    /// ```
    /// use ndarray_layout::compat::{ArrayView, Layout, NdProducer, ShapeBuilder};
    ///
    /// let view = ArrayView::from_shape((2, 3).f(), &[0, 1, 2, 3, 4, 5]).unwrap();
    /// assert!(view.layout().is(Layout::FORDER) && !view.layout().is(Layout::CORDER));
    /// ```
    fn layout(&self) -> Layout;
}

/// Not proved.
impl<D: crate::Dimension> NdProducer for Strided<D> {
    type Dim = D;

    fn raw_dim(&self) -> D {
        self.dim().clone()
    }

    fn layout(&self) -> Layout {
        array_layout(self.dim(), self.strides())
    }
}

/// What each type of arrays says by its view.
macro_rules! producers {
    ($($array:ty),*) => {$(
        /// Not proved.
        impl<T, D: crate::Dimension> NdProducer for $array {
            type Dim = D;

            fn raw_dim(&self) -> D {
                self.strided().raw_dim()
            }

            fn layout(&self) -> Layout {
                self.strided().layout()
            }
        }
    )*};
}

producers!(ArrayView<'_, T, D>, ArrayViewMut<'_, T, D>, OwnedArray<T, D>);

/// All indices of an array, to be iterated over in row-major order. ndarray's `indices_of`. Not proved.
///
/// # Panics
///
/// Where an allocation fails. A loop over the result panics where the size passes `usize`, with overflow checks.
///
/// ```
/// use ndarray_layout::compat::{ArrayView, Ix2, indices_of};
///
/// let view = ArrayView::from_shape(Ix2(2, 3), &[5, 1, 3, 5, 1, 3]).unwrap();
/// assert_eq!(indices_of(&view).into_iter().find(|index| view.get(index) == Some(&3)), Some((0, 2)));
/// ```
#[inline]
#[must_use]
#[track_caller]
pub fn indices_of<P: NdProducer>(array: &P) -> Indices<<P::Dim as Dimension>::Proved> {
    indices(array.raw_dim())
}
