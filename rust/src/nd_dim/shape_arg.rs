// Made by `rust/erase` of `crates/nd_dim/src/shape_arg.rt`: edit that.
//! What a caller gives for a shape, with or without an order.

use crate::memory::AllocError;
use crate::nd_base::{Lengths, Order};
use crate::nd_dim::conversion::IntoDimension;

/// A shape, and the order in which its indices are read where the caller gives one. ndarray's
/// `ShapeArg`.
pub trait ShapeArg {
    /// The dimension type of the shape.
    type Dim: Lengths;

    /// The shape, and the order where the caller gives one.
    ///
    /// ndarray's `into_shape_and_order`.
    ///
    /// # Errors
    ///
    /// Out of memory; never where the type fixes the count or there are at most 4 axes, nor from a
    /// dimension, an `IxDynImpl` or a vector.
    ///
    /// <details><summary>Contract (proved)</summary>
    ///
    /// ```text
    /// ensures list: IfOk result (λ shape. Self.Dim.list shape.0 ≡ shape_lens self)
    /// ensures order: IfOk result (λ shape. shape.1 ≡ shape_order self)
    /// ensures memory: NeedsNoMemory Self.Dim.NDIM (length (shape_lens self)) → IsOk result
    /// ensures no_memory: shape_needs_memory self ≡ false → IsOk result
    /// ```
    /// [How to read it](crate::contracts)
    /// </details>
    fn into_shape_and_order(self) -> Result<(Self::Dim, Option<Order>), AllocError>;
}

impl<T: IntoDimension> ShapeArg for T {
    type Dim = T::Dim;

    #[inline]
    fn into_shape_and_order(self) -> Result<(T::Dim, Option<Order>), AllocError> {
        Ok((self.into_dimension()?, None))
    }
}

impl<T: IntoDimension> ShapeArg for (T, Order) {
    type Dim = T::Dim;

    #[inline]
    fn into_shape_and_order(self) -> Result<(T::Dim, Option<Order>), AllocError> {
        let (lens, order) = self;
        Ok((lens.into_dimension()?, Some(order)))
    }
}
