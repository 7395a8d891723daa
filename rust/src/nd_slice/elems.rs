// Made by `rust/erase` of `crates/nd_slice/src/elems.rt`: edit that.
//! Types that hold the elements of a slice argument.

use crate::memory::prelude::Vec;
use crate::nd_slice::elem::SliceInfoElem;

/// The elements of a slice argument, whatever type keeps them. For ndarray's bound
/// `AsRef<[SliceInfoElem]>` of `SliceArg`.
///
/// Sealed: no type outside this package implements it.
pub trait SliceElems: crate::sealed::Sealed {
    /// The elements, in order.
    ///
    /// <details><summary>Contract (proved)</summary>
    ///
    /// ```text
    /// ensures result.now ≡ list self.now
    /// ```
    /// [How to read it](crate::contracts)
    /// </details>
    #[must_use]
    fn elems(&self) -> &[SliceInfoElem];
}

impl<const N: usize> SliceElems for [SliceInfoElem; N] {
    #[inline]
    fn elems(&self) -> &[SliceInfoElem] {
        self
    }
}

impl SliceElems for &[SliceInfoElem] {
    #[inline]
    fn elems(&self) -> &[SliceInfoElem] {
        *self
    }
}

impl SliceElems for Vec<SliceInfoElem> {
    #[inline]
    fn elems(&self) -> &[SliceInfoElem] {
        self.as_slice()
    }
}

/// A slice argument with what goes with it, as the items that are to be written there.
impl<S: SliceElems, T> SliceElems for (S, T) {
    #[inline]
    fn elems(&self) -> &[SliceInfoElem] {
        self.0.elems()
    }
}
