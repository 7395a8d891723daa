//! Arrays of lists, of arrays that own their items, and of what a closure makes of each index.

use crate::convenience::OUT_OF_MEMORY;
use crate::memory::FallibleVec;
use crate::nd_base::{Ix1, Ix2, Lengths};
use crate::{ArrayView, ArrayViewMut, Dimension, OwnedArray, Shape, ShapeBuilder};
use crate::{indices_iter_f, size_of_shape_checked};
use alloc::vec::Vec;
use core::fmt::Display;

/// A made array, or its size. Panics where there is an error.
#[track_caller]
pub(crate) fn fitting<A>(made: Result<A, impl Display>) -> A {
    match made {
        Ok(made) => made,
        Err(fault) => panic!("the array is not made: {fault}"),
    }
}

/// Conversions: the parameters of each, what is taken, the array, and how it is made.
macro_rules! conversions {
    ($($(#[$doc:meta])* [$($generics:tt)*] $taken:ty => $array:ty, $value:ident: $made:expr;)*) => {$(
        $(#[$doc])*
        ///
        /// Not proved.
        impl<$($generics)*> From<$taken> for $array {
            #[track_caller]
            fn from($value: $taken) -> Self {
                $made
            }
        }
    )*};
}

conversions! {
    /// The array of one axis of a list. ndarray's `aview1`, and `From` of a list. Panics for more items than an `isize` counts, as only
    /// items of size 0 can be.
    ///
    /// ```
    /// use ndarray_layout::*;
    ///
    /// let array = ArrayView::from(&[7, 8, 9]);
    /// assert_eq!((array.dim(), array[1]), (&Ix1(3), 8));
    /// assert_eq!(ArrayView::from(&vec![7, 8, 9]), ArrayView::from(&[7, 8, 9][..]));
    /// ```
    ['a, T] &'a [T] => ArrayView<'a, T, Ix1>, items: fitting(ArrayView::from_shape(items.len(), items));
    /// The array of one axis of an array of Rust. Panics as that of a list.
    ['a, T, const N: usize] &'a [T; N] => ArrayView<'a, T, Ix1>, items: ArrayView::from(&items[..]);
    /// The array of one axis of a vector. Panics as that of a list.
    ['a, T] &'a Vec<T> => ArrayView<'a, T, Ix1>, items: ArrayView::from(&items[..]);
    /// The array of one axis of a list, to be written. ndarray's `From` of a list. Panics for more items than an `isize` counts, as
    /// only items of size 0 can be.
    ///
    /// ```
    /// use ndarray_layout::*;
    ///
    /// let mut items = [7, 8, 9];
    /// ArrayViewMut::from(&mut items)[1] = 5;
    /// assert_eq!(items, [7, 5, 9]);
    /// ```
    ['a, T] &'a mut [T] => ArrayViewMut<'a, T, Ix1>, items: fitting(ArrayViewMut::from_shape(items.len(), items));
    /// The array of one axis of an array of Rust, to be written. Panics as that of a list.
    ['a, T, const N: usize] &'a mut [T; N] => ArrayViewMut<'a, T, Ix1>, items: ArrayViewMut::from(&mut items[..]);
    /// The array of one axis of a vector, to be written. Panics as that of a list.
    ['a, T] &'a mut Vec<T> => ArrayViewMut<'a, T, Ix1>, items: ArrayViewMut::from(&mut items[..]);
    /// The array of one axis that owns the items of a list. ndarray's `From` of a list. Panics for more items than an `isize` counts,
    /// as only items of size 0 can be.
    ///
    /// ```
    /// use ndarray_layout::*;
    ///
    /// assert_eq!(OwnedArray::from(vec![7, 8, 9])[1], 8);
    /// ```
    [T] Vec<T> => OwnedArray<T, Ix1>, items: fitting(OwnedArray::from_exact_vec(items.len(), items));
    /// The array of two axes that owns the items of rows. ndarray's `From` of a list of arrays. Panics where the size passes `isize`, which
    /// it does only for items without a size.
    ///
    /// ```
    /// use ndarray_layout::*;
    ///
    /// assert_eq!(OwnedArray::from(vec![[1, 2, 3], [4, 5, 6]])[(1, 0)], 4);
    /// ```
    [T, const N: usize] Vec<[T; N]> => OwnedArray<T, Ix2>,
        rows: fitting(OwnedArray::from_exact_vec((rows.len(), N), rows.into_flattened()));
    /// The array lent, as `view`. Panics where an allocation fails, never for at most 4 axes.
    ['a, T, D: Lengths] &'a OwnedArray<T, D> => ArrayView<'a, T, D>, array: array.view();
    /// The array lent to be written, as `view_mut`. Panics where an allocation fails, never for at most 4 axes.
    ['a, T, D: Lengths] &'a mut OwnedArray<T, D> => ArrayViewMut<'a, T, D>, array: array.view_mut();
}

impl<T> OwnedArray<T, Ix1> {
    /// The array of one axis that owns the items of a list: `From` of the list. ndarray's `from_vec`. Not proved.
    ///
    /// # Panics
    ///
    /// For more items than an `isize` counts, as only items of size 0 can be.
    ///
    /// ```
    /// use ndarray_layout::*;
    ///
    /// assert_eq!(OwnedArray::from_vec(vec![7, 8, 9])[1], 8);
    /// ```
    #[must_use]
    #[track_caller]
    pub fn from_vec(items: Vec<T>) -> Self {
        Self::from(items)
    }
}

/// A shape, and how many indices it has.
#[track_caller]
fn counted<D: Dimension>(shape: impl ShapeBuilder<Dim = D>) -> (Shape<D>, usize) {
    let shape = shape.into_shape_with_order().expect(OUT_OF_MEMORY);
    let count = fitting(size_of_shape_checked(shape.raw_dim()));
    (shape, count)
}

/// A list with room for `count` items.
#[track_caller]
fn room<T>(count: usize) -> Vec<T> {
    Vec::fallible_with_capacity(count).expect(OUT_OF_MEMORY)
}

impl<T, D: Dimension> OwnedArray<T, D> {
    /// The array of a shape with a copy of an item at each index; the item itself is one of them. ndarray's `from_elem`. Not proved.
    ///
    /// # Panics
    ///
    /// Where the product of the lengths other than 0 passes `isize`, and where an allocation fails: `from_exact_vec` returns an error instead.
    ///
    /// ```
    /// use ndarray_layout::*;
    ///
    /// assert_eq!(OwnedArray::from_elem((2, 3), 7).into_stored(), [7; 6]);
    /// ```
    #[must_use]
    #[track_caller]
    pub fn from_elem(shape: impl ShapeBuilder<Dim = D>, item: T) -> Self
    where
        T: Clone,
    {
        let (shape, count) = counted(shape);
        let mut items = room(count);
        items.resize(count, item);
        fitting(OwnedArray::from_exact_vec(shape, items))
    }

    /// The array of a shape of what a closure makes of each index, which is called in the order in which the items lie. ndarray's
    /// `from_shape_fn`. Not proved; the calls in row-major order are.
    ///
    /// # Panics
    ///
    /// Where the product of the lengths other than 0 passes `isize`, and where an allocation fails.
    ///
    /// ```
    /// use ndarray_layout::*;
    ///
    /// let table = OwnedArray::from_shape_fn((2, 3), |(row, column)| 10 * row + column);
    /// assert_eq!(table.into_stored(), [0, 1, 2, 10, 11, 12]);
    /// ```
    #[must_use]
    #[track_caller]
    pub fn from_shape_fn<F: FnMut(D::Pattern) -> T>(shape: impl ShapeBuilder<Dim = D>, f: F) -> Self {
        let (shape, count) = counted(shape);
        let dim = shape.raw_dim();
        let items = match shape.is_c() {
            true => fitting(OwnedArray::list_by_index(dim, f)),
            false => {
                let mut items = room(count);
                items.extend(indices_iter_f(dim.clone()).expect(OUT_OF_MEMORY).map(f));
                items
            }
        };
        fitting(OwnedArray::from_exact_vec(shape, items))
    }
}
