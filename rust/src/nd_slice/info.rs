// Made by `rust/erase` of `crates/nd_slice/src/info.rt`: edit that.
//! The elements of a slice argument, with the types of the shapes before and after.

use crate::memory::AllocError;
use crate::memory::prelude::Vec;
use crate::nd_base::{ErrorKind, FixedCount, ShapeError, from_kind};
use crate::nd_slice::elem::SliceInfoElem;
use crate::nd_slice::elems::SliceElems;
use crate::nd_slice::slice_errors::{in_ndim_of, out_ndim_of};
use core::marker::PhantomData;

/// The elements of a slice argument, kept in a `T`, for as many axes as `Din` has and with a result
/// of as many as `Dout` has, where those types fix a count. ndarray's `SliceInfo`.
#[derive(Debug)]
pub struct SliceInfo<T: SliceElems, Din: FixedCount, Dout: FixedCount> {
    in_dim: PhantomData<Din>,
    out_dim: PhantomData<Dout>,
    indices: T,
}

impl<T: SliceElems + Clone, Din: FixedCount, Dout: FixedCount> Clone for SliceInfo<T, Din, Dout> {
    #[inline]
    fn clone(&self) -> Self {
        SliceInfo { indices: self.indices.clone(), in_dim: PhantomData, out_dim: PhantomData }
    }
}

impl<T: SliceElems + Copy, Din: FixedCount, Dout: FixedCount> Copy for SliceInfo<T, Din, Dout> {}

/// Whether a dimension type has `count` axes or allows any number.
///
/// <details><summary>Contract (proved)</summary>
///
/// ```text
/// ensures IsTrue result ↔ IsCount D.NDIM count
/// ```
/// [How to read it](crate::contracts)
/// </details>
#[inline]
fn allows<D: FixedCount>(count: usize) -> bool {
    match D::NDIM {
        Some(fixed) => count == fixed,
        None => true,
    }
}

impl<T: SliceElems + Sized, Din: FixedCount, Dout: FixedCount> SliceInfo<T, Din, Dout> {
    /// The elements with the types.
    ///
    /// # Errors
    ///
    /// `IncompatibleShape` where a type fixes another count of axes than the elements have.
    ///
    /// <details><summary>Contract (proved)</summary>
    ///
    /// ```text
    /// ensures value: OkIff result (HasCounts Din.NDIM Dout.NDIM (T.list indices)) indices
    /// ensures fault: IsOkUnless result ErrorKind.IncompatibleShape
    /// ```
    /// [How to read it](crate::contracts)
    /// </details>
    #[inline]
    fn checked(indices: T) -> Result<Self, ShapeError> {
        let elems = indices.elems();
        if !allows::<Din>(in_ndim_of(elems)) || !allows::<Dout>(out_ndim_of(elems)) {
            return Err(from_kind(ErrorKind::IncompatibleShape));
        }
        Ok(SliceInfo { indices, in_dim: PhantomData, out_dim: PhantomData })
    }
}

impl<T: SliceElems, Din: FixedCount, Dout: FixedCount> SliceInfo<T, Din, Dout> {
    /// The value that keeps the elements. In place of ndarray's `Deref`.
    ///
    /// <details><summary>Contract (proved)</summary>
    ///
    /// ```text
    /// ensures value: result.now ≡ self.now
    /// ensures counts: HasCounts Din.NDIM Dout.NDIM (T.list self.now)
    /// ```
    /// [How to read it](crate::contracts)
    /// </details>
    #[must_use]
    #[inline]
    pub fn indices(&self) -> &T {
        &self.indices
    }

    /// The number of axes of the shapes that the elements are for.
    ///
    /// Takes time in proportion to the slices and indices of the argument where `Din` fixes no
    /// count. ndarray's `SliceInfo::in_ndim`.
    ///
    /// <details><summary>Contract (proved)</summary>
    ///
    /// ```text
    /// ensures count: result ≡ in_count (T.list self.now)
    /// ensures fixed: IsCount Din.NDIM result
    /// ```
    /// [How to read it](crate::contracts)
    /// </details>
    #[must_use]
    #[inline]
    pub fn in_ndim(&self) -> usize {
        match Din::NDIM {
            Some(count) => count,
            None => in_ndim_of(self.indices.elems()),
        }
    }

    /// The number of axes that the elements leave.
    ///
    /// Takes time in proportion to the slices and indices of the argument where `Dout` fixes no
    /// count. ndarray's `SliceInfo::out_ndim`.
    ///
    /// <details><summary>Contract (proved)</summary>
    ///
    /// ```text
    /// ensures count: result ≡ out_count (T.list self.now)
    /// ensures fixed: IsCount Dout.NDIM result
    /// ```
    /// [How to read it](crate::contracts)
    /// </details>
    #[must_use]
    #[inline]
    pub fn out_ndim(&self) -> usize {
        match Dout::NDIM {
            Some(count) => count,
            None => out_ndim_of(self.indices.elems()),
        }
    }
}

impl<T: SliceElems, Din: FixedCount, Dout: FixedCount> SliceElems for SliceInfo<T, Din, Dout> {
    #[inline]
    fn elems(&self) -> &[SliceInfoElem] {
        self.indices.elems()
    }
}

/// The elements of an array with the types. Fails with `IncompatibleShape` where a type fixes another
/// count of axes than the elements have.
impl<Din: FixedCount, Dout: FixedCount, const N: usize> TryFrom<[SliceInfoElem; N]>
    for SliceInfo<[SliceInfoElem; N], Din, Dout>
{
    type Error = ShapeError;

    #[inline]
    fn try_from(indices: [SliceInfoElem; N]) -> Result<Self, ShapeError> {
        SliceInfo::checked(indices)
    }
}

/// Elements that are kept elsewhere with the types. Fails with `IncompatibleShape` where a type fixes
/// another count of axes than the elements have.
impl<'a, Din: FixedCount, Dout: FixedCount> TryFrom<&'a [SliceInfoElem]> for SliceInfo<&'a [SliceInfoElem], Din, Dout> {
    type Error = ShapeError;

    #[inline]
    fn try_from(indices: &'a [SliceInfoElem]) -> Result<Self, ShapeError> {
        SliceInfo::checked(indices)
    }
}

/// The elements of a vector with the types. Fails with `IncompatibleShape` where a type fixes another
/// count of axes than the elements have.
impl<Din: FixedCount, Dout: FixedCount> TryFrom<Vec<SliceInfoElem>> for SliceInfo<Vec<SliceInfoElem>, Din, Dout> {
    type Error = ShapeError;

    #[inline]
    fn try_from(indices: Vec<SliceInfoElem>) -> Result<Self, ShapeError> {
        SliceInfo::checked(indices)
    }
}

/// The same elements and types, with the elements lent.
impl<'a, T: SliceElems, Din: FixedCount, Dout: FixedCount> From<&'a SliceInfo<T, Din, Dout>>
    for SliceInfo<&'a [SliceInfoElem], Din, Dout>
{
    #[inline]
    fn from(info: &'a SliceInfo<T, Din, Dout>) -> Self {
        SliceInfo { indices: info.indices.elems(), in_dim: PhantomData, out_dim: PhantomData }
    }
}
