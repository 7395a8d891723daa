//! The parent of the traits that no type outside this package implements.

use crate::nd_base::{Dim, FixedCount};
use crate::nd_dim::{Forward, Reverse};
use crate::nd_slice::{Grouped, SliceElems, SliceInfo};
use alloc::vec::Vec;

/// No caller can name it. An impl here may be for all types of a form, as `[T; N]`: a caller implements a trait only for types of
/// the caller's crate and references to them.
///
/// An index that says what it likes would lead out of the data, so this doesn't compile:
///
/// ```compile_fail,E0277
/// use ndarray_layout::{Ix1, NdIndex};
///
/// #[derive(Debug)]
/// struct Anywhere;
///
/// impl NdIndex<Ix1> for Anywhere {
///     fn index_checked(&self, _: &Ix1, _: &Ix1) -> Option<isize> {
///         Some(1_000_000)
///     }
///
///     fn index_unchecked(&self, _: &Ix1) -> isize {
///         1_000_000
///     }
/// }
/// ```
pub trait Sealed {}

impl<I> Sealed for Dim<I> {}

impl<T: SliceElems, Din: FixedCount, Dout: FixedCount> Sealed for SliceInfo<T, Din, Dout> {}

impl Sealed for Grouped<'_> {}

impl<D> Sealed for Forward<D> {}

impl<D> Sealed for Reverse<D> {}

impl<T> Sealed for Vec<T> {}

impl<T> Sealed for [T] {}

impl<T, const N: usize> Sealed for [T; N] {}

impl<T: Sealed + ?Sized> Sealed for &T {}

impl Sealed for u8 {}

impl Sealed for u16 {}

impl Sealed for u32 {}

impl Sealed for u64 {}

impl Sealed for usize {}

/// Tuples: indices, and a slice argument with what goes with it.
macro_rules! tuples {
    ($(($($item:ident),*))*) => {$(
        impl<$($item),*> Sealed for ($($item,)*) {}
    )*};
}

tuples!(()(A, B)(A, B, C)(A, B, C, D)(A, B, C, D, E)(A, B, C, D, E, F));
