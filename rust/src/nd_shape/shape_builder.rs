// Made by `rust/erase` of `crates/nd_shape/src/shape_builder.rt`: edit that.
//! Shapes with an order or with strides, and what they are built from.

use crate::memory::AllocError;
use crate::nd_base::{Lengths, Order};
use crate::nd_dim::{IntoDimension, default_strides, fortran_strides, product};

/// A shape whose indices lie one after another, in one of the two orders. ndarray's `Shape`.
#[derive(Clone, Copy, Debug)]
pub struct Shape<D> {
    dim: D,
    order: Order,
}

/// A shape and its strides. ndarray's `StrideShape`.
#[derive(Clone, Copy, Debug)]
pub struct StrideShape<D> {
    /// The axis lengths.
    pub dim: D,
    /// The strides.
    pub strides: Strides<D>,
}

/// Which strides a shape has. ndarray's `Strides`.
#[derive(Clone, Copy, Debug)]
pub enum Strides<D> {
    /// Those of row-major order: the last axis moves fastest.
    C,
    /// Those of column-major order: the first axis moves fastest.
    F,
    /// Those that are given here.
    Custom(D),
}

impl<D: Lengths> Shape<D> {
    /// The number of indices.
    ///
    /// Takes time in proportion to the count of axes. ndarray's `size`.
    ///
    /// # Conditions
    ///
    /// The caller ensures that the product of the lengths is less than 2^64 (`size_of_shape_checked`). Otherwise this
    /// call or a later one panics or returns unspecified values.
    ///
    /// <details><summary>Contract (proved)</summary>
    ///
    /// ```text
    /// requires size (D.list (dim_of self.now)) < 2 ^ 64
    /// ensures result ≡ size (D.list (dim_of self.now))
    /// ```
    /// [How to read it](crate::contracts)
    /// </details>
    #[must_use]
    #[inline]
    pub fn size(&self) -> usize {
        product(self.dim.slice())
    }
}

impl<D> Shape<D> {
    /// The axis lengths. ndarray's `raw_dim`.
    ///
    /// <details><summary>Contract (proved)</summary>
    ///
    /// ```text
    /// ensures result.now ≡ dim_of self.now
    /// ```
    /// [How to read it](crate::contracts)
    /// </details>
    #[must_use]
    #[inline]
    pub fn raw_dim(&self) -> &D {
        &self.dim
    }

    /// Whether it is row-major: the last axis moves fastest. ndarray's `is_c`.
    ///
    /// <details><summary>Contract (proved)</summary>
    ///
    /// ```text
    /// ensures IsTrue result ↔ (order_of self.now ≡ Order.RowMajor)
    /// ```
    /// [How to read it](crate::contracts)
    /// </details>
    #[must_use]
    #[inline]
    pub fn is_c(&self) -> bool {
        self.order.is_row_major()
    }
}

impl<D: Lengths> From<D> for Shape<D> {
    #[inline]
    fn from(dim: D) -> Self {
        Shape { dim, order: Order::RowMajor }
    }
}

impl<D> StrideShape<D> {
    /// The axis lengths. ndarray's `raw_dim`.
    ///
    /// <details><summary>Contract (proved)</summary>
    ///
    /// ```text
    /// ensures result.now ≡ self.now.dim
    /// ```
    /// [How to read it](crate::contracts)
    /// </details>
    #[must_use]
    #[inline]
    pub fn raw_dim(&self) -> &D {
        &self.dim
    }
}

impl<D: Lengths> StrideShape<D> {
    /// The shape that is built, with the strides of its order.
    ///
    /// In place of ndarray's `From<T> for StrideShape<D>`.
    ///
    /// # Errors
    ///
    /// Out of memory; never where the type fixes the count of axes or there are at most 4, nor from
    /// a `Shape`, a dimension, an `IxDynImpl` or a vector.
    ///
    /// <details><summary>Contract (proved)</summary>
    ///
    /// ```text
    /// ensures dim: IfOk result (λ shape. D.list shape.dim ≡ T.built_lens builder)
    /// ensures strides: IfOk result (λ shape. shape.strides ≡ strides_in (T.built_order builder))
    /// ensures memory: NeedsNoMemory D.NDIM (length (T.built_lens builder)) → IsOk result
    /// ensures no_memory: T.build_needs_memory builder ≡ false → IsOk result
    /// ```
    /// [How to read it](crate::contracts)
    /// </details>
    #[inline]
    pub fn from_builder<T: ShapeBuilder<Dim = D>>(builder: T) -> Result<Self, AllocError> {
        let shape = builder.into_shape_with_order()?;
        let strides = if shape.is_c() { Strides::C } else { Strides::F };
        Ok(StrideShape { dim: shape.dim, strides })
    }

    /// The number of indices.
    ///
    /// Takes time in proportion to the count of axes. ndarray's `size`.
    ///
    /// # Conditions
    ///
    /// The caller ensures that the product of the lengths is less than 2^64 (`size_of_shape_checked`). Otherwise this
    /// call or a later one panics or returns unspecified values.
    ///
    /// <details><summary>Contract (proved)</summary>
    ///
    /// ```text
    /// requires size (D.list self.now.dim) < 2 ^ 64
    /// ensures result ≡ size (D.list self.now.dim)
    /// ```
    /// [How to read it](crate::contracts)
    /// </details>
    #[must_use]
    #[inline]
    pub fn size(&self) -> usize {
        product(self.dim.slice())
    }
}

impl<D> Strides<D> {
    /// The strides, in elements, of a shape of these lengths: those of its order, or the given
    /// ones.
    ///
    /// Takes time in proportion to the count of axes.
    ///
    /// `Strides::F` for `[2,3]`: `[1,2]`. ndarray's `strides_for_dim`.
    ///
    /// # Errors
    ///
    /// Out of memory; never where the strides are given, the type fixes the count of axes or there
    /// are at most 4.
    ///
    /// # Conditions
    ///
    /// The caller ensures that the product of the lengths is less than 2^64 (`size_of_shape_checked`), and that strides
    /// that are given are as many as the axes. Otherwise this call or a later one panics or returns unspecified values.
    ///
    /// <details><summary>Contract (proved)</summary>
    ///
    /// ```text
    /// requires same_count: IfSome (custom_strides self) (λ strides. length (D.list strides) ≡ length (D.list dim.now))
    /// requires size_fits: size (D.list dim.now) < 2 ^ 64
    /// ensures list: IfOk result (λ strides. D.list strides ≡ strides_list D.list (D.list dim.now) self)
    /// ensures given: IfSome (custom_strides self) (λ strides. result ≡ Ok strides)
    /// ensures memory: NeedsNoMemory D.NDIM (length (D.list dim.now)) → IsOk result
    /// ```
    /// [How to read it](crate::contracts)
    /// </details>
    #[inline]
    pub fn strides_for_dim(self, dim: &D) -> Result<D, AllocError>
    where
        D: Lengths,
    {
        match self {
            Strides::C => default_strides(dim),
            Strides::F => fortran_strides(dim),
            Strides::Custom(strides) => Ok(strides),
        }
    }

    /// Whether the strides are given. ndarray's `is_custom`.
    ///
    /// <details><summary>Contract (proved)</summary>
    ///
    /// ```text
    /// ensures IsTrue result ↔ IsSome (custom_strides self.now)
    /// ```
    /// [How to read it](crate::contracts)
    /// </details>
    #[must_use]
    #[inline]
    pub fn is_custom(&self) -> bool {
        matches!(*self, Strides::Custom(_))
    }
}

/// What a shape with an order, or one with strides, can be built from. ndarray's `ShapeBuilder`.
pub trait ShapeBuilder {
    /// The dimension type of the shape.
    type Dim: Lengths;

    /// What strides are given by.
    type Strides;

    /// The shape with its order.
    ///
    /// ndarray's `into_shape_with_order`.
    ///
    /// # Errors
    ///
    /// Out of memory; never where the type fixes the count of axes or there are at most 4, nor from
    /// a `Shape`, a dimension, an `IxDynImpl` or a vector.
    ///
    /// <details><summary>Contract (proved)</summary>
    ///
    /// ```text
    /// ensures list: IfOk result (λ shape. Self.Dim.list (dim_of shape) ≡ built_lens self)
    /// ensures order: IfOk result (λ shape. order_of shape ≡ built_order self)
    /// ensures memory: NeedsNoMemory Self.Dim.NDIM (length (built_lens self)) → IsOk result
    /// ensures no_memory: build_needs_memory self ≡ false → IsOk result
    /// ```
    /// [How to read it](crate::contracts)
    /// </details>
    fn into_shape_with_order(self) -> Result<Shape<Self::Dim>, AllocError>
    where
        Self: Sized;

    /// The shape in column-major order.
    ///
    /// ndarray's `f`.
    ///
    /// # Errors
    ///
    /// Those of `into_shape_with_order`.
    ///
    /// <details><summary>Contract (proved)</summary>
    ///
    /// ```text
    /// ensures list: IfOk result (λ shape. Self.Dim.list (dim_of shape) ≡ built_lens self)
    /// ensures order: IfOk result (λ shape. order_of shape ≡ Order.ColumnMajor)
    /// ensures memory: NeedsNoMemory Self.Dim.NDIM (length (built_lens self)) → IsOk result
    /// ensures no_memory: build_needs_memory self ≡ false → IsOk result
    /// ```
    /// [How to read it](crate::contracts)
    /// </details>
    #[inline]
    fn f(self) -> Result<Shape<Self::Dim>, AllocError>
    where
        Self: Sized,
    {
        self.set_f(true)
    }

    /// The shape in column-major order where `is_f` is true, and else in row-major order.
    ///
    /// ndarray's `set_f`.
    ///
    /// # Errors
    ///
    /// Those of `into_shape_with_order`.
    ///
    /// <details><summary>Contract (proved)</summary>
    ///
    /// ```text
    /// ensures list: IfOk result (λ shape. Self.Dim.list (dim_of shape) ≡ built_lens self)
    /// ensures order: IfOk result (λ shape. order_of shape ≡ (if is_f then Order.ColumnMajor else Order.RowMajor))
    /// ensures memory: NeedsNoMemory Self.Dim.NDIM (length (built_lens self)) → IsOk result
    /// ensures no_memory: build_needs_memory self ≡ false → IsOk result
    /// ```
    /// [How to read it](crate::contracts)
    /// </details>
    #[inline]
    fn set_f(self, is_f: bool) -> Result<Shape<Self::Dim>, AllocError>
    where
        Self: Sized,
    {
        let mut shape = self.into_shape_with_order()?;
        shape.order = Order::column_major(is_f);
        Ok(shape)
    }

    /// The shape with these strides, in elements and with their sign (`signed`).
    ///
    /// ndarray's `strides`.
    ///
    /// # Errors
    ///
    /// Out of memory; never where the type fixes the count of axes, where there are at most 4 axes
    /// and at most 4 strides, nor where both are a `Shape`, a dimension, an `IxDynImpl` or a vector.
    ///
    /// <details><summary>Contract (proved)</summary>
    ///
    /// ```text
    /// ensures list: IfOk result (λ shape. Self.Dim.list shape.dim ≡ built_lens self)
    /// ensures strides: IfOk result (λ shape.
    ///     option_map Self.Dim.list (custom_strides shape.strides)
    ///     ≡ Some (given_strides strides))
    /// ensures memory: NeedsNoMemory Self.Dim.NDIM (length (built_lens self))
    ///     → NeedsNoMemory Self.Dim.NDIM (length (given_strides strides))
    ///     → IsOk result
    /// ensures no_memory: build_needs_memory self ≡ false → strides_need_memory strides ≡ false → IsOk result
    /// ```
    /// [How to read it](crate::contracts)
    /// </details>
    fn strides(self, strides: Self::Strides) -> Result<StrideShape<Self::Dim>, AllocError>
    where
        Self: Sized;
}

impl<T: IntoDimension> ShapeBuilder for T {
    type Dim = T::Dim;

    type Strides = T;

    #[inline]
    fn into_shape_with_order(self) -> Result<Shape<T::Dim>, AllocError> {
        Ok(Shape { dim: self.into_dimension()?, order: Order::RowMajor })
    }

    #[inline]
    fn strides(self, strides: T) -> Result<StrideShape<T::Dim>, AllocError> {
        let dim = self.into_dimension();
        let strides = strides.into_dimension();
        Ok(StrideShape { dim: dim?, strides: Strides::Custom(strides?) })
    }
}

impl<D: Lengths> ShapeBuilder for Shape<D> {
    type Dim = D;

    type Strides = D;

    #[inline]
    fn into_shape_with_order(self) -> Result<Self, AllocError> {
        Ok(self)
    }

    #[inline]
    fn f(self) -> Result<Self, AllocError> {
        self.set_f(true)
    }

    #[inline]
    fn set_f(mut self, is_f: bool) -> Result<Self, AllocError> {
        self.order = Order::column_major(is_f);
        Ok(self)
    }

    #[inline]
    fn strides(self, strides: D) -> Result<StrideShape<D>, AllocError> {
        Ok(StrideShape { dim: self.dim, strides: Strides::Custom(strides) })
    }
}
