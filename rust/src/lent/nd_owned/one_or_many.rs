// Made by `rust/erase` of `crates/nd_owned/src/one_or_many.rt`: edit that.
//! A list of which a single item lies in the value itself.

use crate::memory::AllocError;
use crate::memory::prelude::{FallibleVec, Vec};
use core::slice;

/// A list: a single item lies in the value itself, and takes no memory.
pub(crate) enum OneOrMany<T> {
    One(T),
    Many(Vec<T>),
}

impl<T> OneOrMany<T> {
    /// The items, in order.
    ///
    /// <details><summary>Contract (proved)</summary>
    ///
    /// ```text
    /// requires FitsInMemory T.row
    /// ensures result.now ≡ items_of self.now
    /// ```
    /// [How to read it](crate::contracts)
    /// </details>
    #[inline(always)]
    pub(crate) fn as_slice(&self) -> &[T] {
        match self {
            OneOrMany::One(item) => slice::from_ref(item),
            OneOrMany::Many(items) => items.as_slice(),
        }
    }

    /// Whether there is no item.
    ///
    /// <details><summary>Contract (proved)</summary>
    ///
    /// ```text
    /// ensures IsTrue result ↔ (length (items_of self.now) ≡ 0)
    /// ```
    /// [How to read it](crate::contracts)
    /// </details>
    #[inline(always)]
    pub(crate) fn is_empty(&self) -> bool {
        match self {
            OneOrMany::One(_) => false,
            OneOrMany::Many(items) => items.is_empty(),
        }
    }
}

impl<T: Copy> OneOrMany<T> {
    /// The items of a slice. Errors: out of memory, never where there is at most one.
    ///
    /// <details><summary>Contract (proved)</summary>
    ///
    /// ```text
    /// ensures items: IfOk result (λ list. items_of list ≡ items.now)
    /// ensures memory: length items.now ≤ 1 → IsOk result
    /// ```
    /// [How to read it](crate::contracts)
    /// </details>
    #[inline]
    pub(crate) fn copy_of(items: &[T]) -> Result<Self, AllocError> {
        match items {
            [] => Ok(OneOrMany::Many(Vec::new())),
            [item] => Ok(OneOrMany::One(*item)),
            _ => Ok(OneOrMany::Many(Vec::fallible_from_slice(items)?)),
        }
    }
}
