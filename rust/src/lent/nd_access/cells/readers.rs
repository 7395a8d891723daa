// Made by `rust/erase` of `crates/nd_access/src/cells/readers.rt`: edit that.
//! Elements of a slice that are lent to be read, all of them or once more.

use crate::lent::nd_access::cells::Reader;
use core::marker::PhantomData;

impl<'s, T> Reader<'s, T> {
    /// All elements of a slice. Takes no memory.
    ///
    /// Of 7 8 9, place 1 is 8. The project's own.
    ///
    /// <details><summary>Contract (proved)</summary>
    ///
    /// ```text
    /// ensures all: (result.items ≡ items.now) × (result.marks ≡ replicate (length items.now) true)
    /// ```
    /// [How to read it](crate::contracts)
    /// </details>
    #[inline]
    pub fn of_slice(items: &'s [T]) -> Self {
        Reader { first: items.as_ptr(), mark: PhantomData }
    }

    /// The same elements, for a shorter time. Takes no memory.
    ///
    /// Of 7 8 9, place 1 of both is 8. The project's own.
    ///
    /// <details><summary>Contract (proved)</summary>
    ///
    /// ```text
    /// ensures same: result ≡ self.now
    /// ```
    /// [How to read it](crate::contracts)
    /// </details>
    #[inline]
    pub fn lent(&self) -> Reader<'_, T> {
        Reader { first: self.first, mark: PhantomData }
    }

    /// The same elements once more, for as long. Takes no memory.
    ///
    /// Of 7 8 9, place 1 of both is 8. The project's own.
    ///
    /// <details><summary>Contract (proved)</summary>
    ///
    /// ```text
    /// ensures same: result ≡ self.now
    /// ```
    /// [How to read it](crate::contracts)
    /// </details>
    #[inline]
    pub fn copied(&self) -> Self {
        Reader { first: self.first, mark: PhantomData }
    }
}
