//! What callers give for shapes and indices, by the signatures of ndarray.

use super::{Dimension, or_panic};
use crate::{Ix, Order, Shape, StrideShape, Strides};
use core::fmt::Debug;

/// What stands for a list of lengths and converts to a dimension. ndarray's `IntoDimension`. Not proved.
pub trait IntoDimension {
    /// The dimension type that it makes.
    type Dim: Dimension;

    /// The dimension of the same list. ndarray's `into_dimension`.
    ///
    /// # Panics
    ///
    /// Where an allocation fails.
    ///
    /// ```
    /// use ndarray_layout::compat::{IntoDimension, Ix2, IxDyn};
    ///
    /// assert_eq!((4, 5).into_dimension(), Ix2(4, 5));
    /// assert_eq!(vec![4, 5].into_dimension(), IxDyn(&[4, 5]));
    /// ```
    fn into_dimension(self) -> Self::Dim;
}

/// Not proved.
impl<T: crate::IntoDimension<Dim: crate::Dimension>> IntoDimension for T {
    type Dim = T::Dim;

    #[inline]
    fn into_dimension(self) -> T::Dim {
        or_panic(crate::IntoDimension::into_dimension(self))
    }
}

/// The dimension of a list of lengths, however it is written. ndarray's `Dim(..)`. Not proved.
///
/// # Panics
///
/// Where an allocation fails.
///
/// ```
/// use ndarray_layout::compat::{Dim, Dimension};
///
/// /// The shape with its axes the other way around.
/// fn reversed<D: Dimension>(shape: &D) -> D {
///     let mut reversed = Dim(shape.clone());
///     reversed.slice_mut().reverse();
///     reversed
/// }
///
/// assert_eq!(reversed(&Dim([4, 5])), Dim([5, 4]));
/// ```
#[allow(non_snake_case)]
#[inline]
#[must_use]
pub fn Dim<T: IntoDimension>(lens: T) -> T::Dim {
    lens.into_dimension()
}

/// What can index an array. ndarray's `NdIndex`. Not proved.
///
/// ```
/// use ndarray_layout::compat::{Dimension, Ix2, NdIndex};
///
/// /// The place of an index in row-major order.
/// fn place<D: Dimension, I: NdIndex<D>>(shape: &D, index: I) -> Option<isize> {
///     index.index_checked(shape, &shape.default_strides())
/// }
///
/// assert_eq!((place(&Ix2(4, 5), (1, 2)), place(&Ix2(4, 5), [1, 5])), (Some(7), None));
/// ```
pub trait NdIndex<E>: Debug {
    /// The offset of the index from the first one, where it is one of the shape. ndarray's `index_checked`.
    fn index_checked(&self, dim: &E, strides: &E) -> Option<isize>;

    /// The offset of the index from the first one. ndarray's `index_unchecked`.
    fn index_unchecked(&self, strides: &E) -> isize;
}

/// Not proved.
impl<E: crate::Dimension, I: crate::NdIndex<E>> NdIndex<E> for I {
    #[inline]
    fn index_checked(&self, dim: &E, strides: &E) -> Option<isize> {
        crate::NdIndex::index_checked(self, dim, strides)
    }

    #[inline]
    fn index_unchecked(&self, strides: &E) -> isize {
        crate::NdIndex::index_unchecked(self, strides)
    }
}

/// A shape with an order, and what one is built from. ndarray's `ShapeBuilder`. Not proved.
pub trait ShapeBuilder: Sized {
    /// The dimension type of the shape.
    type Dim: Dimension;

    /// What strides are written as.
    type Strides;

    /// The shape, with its order. ndarray's `into_shape_with_order`.
    ///
    /// # Panics
    ///
    /// Where an allocation fails.
    ///
    /// ```
    /// use ndarray_layout::compat::{Ix2, ShapeBuilder};
    ///
    /// let shape = (4, 5).into_shape_with_order();
    /// assert!(shape.is_c() && *shape.raw_dim() == Ix2(4, 5));
    /// ```
    #[inline]
    fn into_shape_with_order(self) -> Shape<Self::Dim> {
        self.set_f(false)
    }

    /// The shape in column-major order. ndarray's `f`.
    ///
    /// # Panics
    ///
    /// Where an allocation fails.
    ///
    /// ```
    /// use ndarray_layout::compat::ShapeBuilder;
    ///
    /// assert!(!(4, 5).f().is_c());
    /// ```
    #[inline]
    fn f(self) -> Shape<Self::Dim> {
        self.set_f(true)
    }

    /// The shape in column-major order, or in row-major order. ndarray's `set_f`.
    ///
    /// # Panics
    ///
    /// Where an allocation fails.
    ///
    /// ```
    /// use ndarray_layout::compat::ShapeBuilder;
    ///
    /// assert!((4, 5).f().set_f(false).is_c());
    /// ```
    fn set_f(self, is_f: bool) -> Shape<Self::Dim>;

    /// The shape with strides of one's own. ndarray's `strides`.
    ///
    /// # Panics
    ///
    /// Where an allocation fails.
    ///
    /// ```
    /// use ndarray_layout::compat::{Ix2, ShapeBuilder, StrideShape, Strides};
    ///
    /// let StrideShape { dim, strides } = (4, 5).strides((1, 4));
    /// assert!(matches!(strides, Strides::Custom(strides) if strides == Ix2(1, 4)) && dim == Ix2(4, 5));
    /// ```
    fn strides(self, strides: Self::Strides) -> StrideShape<Self::Dim>;
}

/// Not proved.
impl<T: IntoDimension> ShapeBuilder for T {
    type Dim = T::Dim;

    type Strides = T;

    #[inline]
    fn set_f(self, is_f: bool) -> Shape<T::Dim> {
        self.into_dimension().in_order(is_f)
    }

    #[inline]
    fn strides(self, strides: T) -> StrideShape<T::Dim> {
        StrideShape { dim: self.into_dimension(), strides: Strides::Custom(strides.into_dimension()) }
    }
}

/// Not proved.
impl<D: Dimension> ShapeBuilder for Shape<D> {
    type Dim = D;

    type Strides = D;

    #[inline]
    fn into_shape_with_order(self) -> Shape<D> {
        self
    }

    #[inline]
    fn set_f(self, is_f: bool) -> Shape<D> {
        self.raw_dim().clone().in_order(is_f)
    }

    #[inline]
    fn strides(self, strides: D) -> StrideShape<D> {
        StrideShape { dim: self.raw_dim().clone(), strides: Strides::Custom(strides) }
    }
}

/// The size of a shape with an order or with strides, in a function over any dimension. Not proved.
///
/// ```
/// use ndarray_layout::compat::{Dimension, ShapeBuilder, ShapeSize, StrideShape};
///
/// /// How many items an array of a shape has.
/// fn count<D: Dimension>(shape: impl Into<StrideShape<D>>) -> usize {
///     shape.into().size()
/// }
///
/// assert_eq!((count((4, 5)), count((4, 5).f()), count((4, 5).strides((1, 4)))), (20, 20, 20));
/// ```
pub trait ShapeSize {
    /// The product of all lengths. ndarray's `size` of `Shape` and `StrideShape`.
    ///
    /// # Panics
    ///
    /// Where it passes `usize`, with overflow checks.
    fn size(&self) -> Ix;
}

/// Not proved.
impl<D: Dimension> ShapeSize for Shape<D> {
    #[inline]
    fn size(&self) -> Ix {
        self.raw_dim().size()
    }
}

/// Not proved.
impl<D: Dimension> ShapeSize for StrideShape<D> {
    #[inline]
    fn size(&self) -> Ix {
        self.raw_dim().size()
    }
}

/// A shape, with or without an order. ndarray's `ShapeArg`. Not proved.
pub trait ShapeArg {
    /// The dimension type of the shape.
    type Dim: Dimension;

    /// The shape, and the order where there is one. ndarray's `into_shape_and_order`.
    ///
    /// # Panics
    ///
    /// Where an allocation fails.
    ///
    /// ```
    /// use ndarray_layout::compat::{Ix2, Order, ShapeArg};
    ///
    /// assert_eq!((4, 5).into_shape_and_order(), (Ix2(4, 5), None));
    /// assert_eq!(((4, 5), Order::F).into_shape_and_order(), (Ix2(4, 5), Some(Order::ColumnMajor)));
    /// ```
    fn into_shape_and_order(self) -> (Self::Dim, Option<Order>);
}

/// Not proved.
impl<T: IntoDimension> ShapeArg for T {
    type Dim = T::Dim;

    #[inline]
    fn into_shape_and_order(self) -> (T::Dim, Option<Order>) {
        (self.into_dimension(), None)
    }
}

/// Not proved.
impl<T: IntoDimension> ShapeArg for (T, Order) {
    type Dim = T::Dim;

    #[inline]
    fn into_shape_and_order(self) -> (T::Dim, Option<Order>) {
        (self.0.into_dimension(), Some(self.1))
    }
}
