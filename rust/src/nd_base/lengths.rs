// Made by `rust/erase` of `crates/nd_base/src/lengths.rt`: edit that.
//! What all dimension types share: a value stands for its list of lengths and for nothing else.

use crate::memory::AllocError;
use core::fmt::Debug;
use core::ops::IndexMut;

/// The number of lengths that an `IxDyn` keeps in the value itself, without memory. The project's
/// own.
pub const INLINE_AXES: usize = 4;

/// The number of axes of every value of a type, where the type fixes that.
///
/// Sealed: no type outside this package implements it.
pub trait FixedCount: crate::sealed::Sealed {
    /// The count of axes, or `None` where values of the type may differ in it. ndarray's `NDIM`.
    const NDIM: Option<usize>;
}

/// A list of lengths, or of the coordinates of an index: one number for each axis, in order. What
/// the values of a type do depends on this list alone. The part of ndarray's `Dimension` that needs
/// no other trait.
///
/// Sealed: no type outside this package implements it.
pub trait Lengths:
    FixedCount + Eq + Debug + IndexMut<usize, Output = usize> + Sized + crate::sealed::Sealed + Clone + Send + Sync
{
    /// The number of axes. ndarray's `ndim`.
    ///
    /// <details><summary>Contract (proved)</summary>
    ///
    /// ```text
    /// ensures count: result ≡ length (list self.now)
    /// ensures fixed: IsCount Self.NDIM (length (list self.now))
    /// ```
    /// [How to read it](crate::contracts)
    /// </details>
    #[must_use]
    fn ndim(&self) -> usize;

    /// The lengths, in order. ndarray's `slice`.
    ///
    /// <details><summary>Contract (proved)</summary>
    ///
    /// ```text
    /// ensures list: result.now ≡ list self.now
    /// ensures fixed: IsCount Self.NDIM (length (list self.now))
    /// ```
    /// [How to read it](crate::contracts)
    /// </details>
    #[must_use]
    fn slice(&self) -> &[usize];

    /// The lengths, to be written; their count is fixed. ndarray's `slice_mut`.
    ///
    /// <details><summary>Contract (proved)</summary>
    ///
    /// ```text
    /// ensures list: result.now ≡ list self.old
    /// ```
    /// [How to read it](crate::contracts)
    /// </details>
    #[must_use]
    fn slice_mut(&mut self) -> &mut [usize];

    /// Whether both stand for one list.
    ///
    /// Takes time in proportion to the count of axes. ndarray's `equal`.
    ///
    /// <details><summary>Contract (proved)</summary>
    ///
    /// ```text
    /// ensures IsTrue result ↔ (list self.now ≡ list other.now)
    /// ```
    /// [How to read it](crate::contracts)
    /// </details>
    #[must_use]
    fn equal(&self, other: &Self) -> bool;

    /// `n` zeros.
    ///
    /// Takes time in proportion to the count of axes. ndarray's `zeros`.
    ///
    /// # Errors
    ///
    /// Out of memory; never where the type fixes the count or `n` is at most 4 (`INLINE_AXES`).
    ///
    /// # Conditions
    ///
    /// The caller ensures that the type allows `n` axes. Otherwise this call or a later one panics or returns
    /// unspecified values.
    ///
    /// <details><summary>Contract (proved)</summary>
    ///
    /// ```text
    /// requires IsCount Self.NDIM n
    /// ensures list: IfOk result (λ d. list d ≡ replicate n 0)
    /// ensures memory: NeedsNoMemory Self.NDIM n → IsOk result
    /// ```
    /// [How to read it](crate::contracts)
    /// </details>
    fn zeros(n: usize) -> Result<Self, AllocError>
    where
        Self: Sized;

    /// The same list in a value of its own.
    ///
    /// Takes time in proportion to the count of axes. In place of ndarray's `Clone`.
    ///
    /// # Errors
    ///
    /// Out of memory; never where the type fixes the count or there are at most 4 axes.
    ///
    /// <details><summary>Contract (proved)</summary>
    ///
    /// ```text
    /// ensures list: IfOk result (λ d. list d ≡ list self.now)
    /// ensures memory: NeedsNoMemory Self.NDIM (length (list self.now)) → IsOk result
    /// ```
    /// [How to read it](crate::contracts)
    /// </details>
    fn duplicate(&self) -> Result<Self, AllocError>
    where
        Self: Sized;

    /// A copy of the list where the type fixes its count, which takes no memory; else `None`.
    ///
    /// Takes time in proportion to the count of axes. In place of ndarray's `Copy`.
    ///
    /// <details><summary>Contract (proved)</summary>
    ///
    /// ```text
    /// ensures list: IfSome result (λ d. list d ≡ list self.now)
    /// ```
    /// [How to read it](crate::contracts)
    /// </details>
    #[must_use]
    fn copied(&self) -> Option<Self>
    where
        Self: Sized;
}
