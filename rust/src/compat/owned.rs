//! Arrays that own their items: ndarray's names, and the calls of its arrays that ask the layer for a layout.

use super::{Dimension, ShapeBuilder, or_panic};
use crate::{ArrayView, Fit, Ix0, Ix1, Ix2, Ix3, Ix4, Ix5, Ix6, IxDyn, OwnedArray, SliceArg};

/// An array that owns its items. ndarray's `Array`. Not proved.
///
/// ```
/// use ndarray_layout::compat::{Array, ArrayExt, Ix2};
///
/// let array: Array<u8, Ix2> = Array::zeros((4, 5));
/// assert_eq!(array.stored().len(), 20);
/// ```
pub type Array<A, D> = OwnedArray<A, D>;

/// An array of one item. ndarray's `Array0`. Not proved.
pub type Array0<A> = Array<A, Ix0>;

/// An array of one axis. ndarray's `Array1`. Not proved.
pub type Array1<A> = Array<A, Ix1>;

/// An array of two axes. ndarray's `Array2`. Not proved.
pub type Array2<A> = Array<A, Ix2>;

/// An array of three axes. ndarray's `Array3`. Not proved.
pub type Array3<A> = Array<A, Ix3>;

/// An array of four axes. ndarray's `Array4`. Not proved.
pub type Array4<A> = Array<A, Ix4>;

/// An array of five axes. ndarray's `Array5`. Not proved.
pub type Array5<A> = Array<A, Ix5>;

/// An array of six axes. ndarray's `Array6`. Not proved.
pub type Array6<A> = Array<A, Ix6>;

/// An array of any number of axes. ndarray's `ArrayD`. Not proved.
pub type ArrayD<A> = Array<A, IxDyn>;

/// The array of one axis of copies of items. ndarray's `arr1`. Not proved.
///
/// ```
/// use ndarray_layout::compat::{arr1, array};
///
/// assert_eq!(arr1(&[1, 2, 3]), array![1, 2, 3]);
/// ```
#[must_use]
pub fn arr1<A: Clone>(items: &[A]) -> Array1<A> {
    Array::from(items.to_vec())
}

/// The array of two axes of copies of rows. ndarray's `arr2`. Not proved.
///
/// ```
/// use ndarray_layout::compat::{arr2, array};
///
/// assert_eq!(arr2(&[[1, 2], [3, 4]]), array![[1, 2], [3, 4]]);
/// ```
#[must_use]
pub fn arr2<A: Clone, const N: usize>(rows: &[[A; N]]) -> Array2<A> {
    Array2::from(rows.to_vec())
}

/// Calls of ndarray's arrays that ask the layer for a layout. Not proved.
pub trait ArrayExt<A, D: Dimension>: Sized {
    /// An array of default items, which are zeros where the items are numbers. ndarray's `zeros`.
    ///
    /// # Panics
    ///
    /// Where the product of the lengths other than 0 passes `isize`, and where an allocation fails.
    ///
    /// ```
    /// use ndarray_layout::compat::{Array2, ArrayExt, Ix2, ShapeBuilder};
    ///
    /// let array = Array2::<f64>::zeros((4, 5).f());
    /// assert_eq!((array.strided().strides(), array.stored().len()), (&Ix2(1, 4), 20));
    /// ```
    fn zeros<Sh: ShapeBuilder<Dim = D>>(shape: Sh) -> Self
    where
        A: Clone + Default;

    /// The items that a slice picks. ndarray's `slice`.
    ///
    /// # Panics
    ///
    /// Where an index or a bound is past its axis, at the step 0, for another count of axes, and where an allocation fails.
    ///
    /// ```
    /// use ndarray_layout::compat::{Array2, ArrayExt, s};
    ///
    /// let mut array = Array2::<i32>::zeros((2, 3));
    /// array[[1, 2]] = 7;
    /// let column = array.slice(s![.., -1]);
    /// assert!(column.iter().eq(&[0, 7]));
    /// ```
    fn slice<I: SliceArg<D::Proved>>(&self, info: I) -> ArrayView<'_, A, I::OutDim>;
}

/// Not proved.
impl<A, D: crate::Dimension> ArrayExt<A, D> for OwnedArray<A, D> {
    #[track_caller]
    fn zeros<Sh: ShapeBuilder<Dim = D>>(shape: Sh) -> Self
    where
        A: Clone + Default,
    {
        OwnedArray::from_elem(shape.into_shape_with_order(), A::default())
    }

    #[track_caller]
    fn slice<I: SliceArg<D>>(&self, info: I) -> ArrayView<'_, A, I::OutDim> {
        ArrayView::new(or_panic(self.strided().slice(&info, Fit::Strict)), self.stored())
    }
}
