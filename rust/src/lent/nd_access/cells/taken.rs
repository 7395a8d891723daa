// Made by `rust/erase` of `crates/nd_access/src/cells/taken.rt`: edit that.
//! The right to some elements, taken of that to all and put back, under the name that it had.

use crate::lent::nd_access::cells::Cells;
use core::marker::PhantomData;

/// What is kept for a part that is out: by it the rest has the part's items again, under the name that it had. It has no size.
///
/// Of 7 8 9 and a part with 8: that the rest has 7 and 9, and had all three. The project's own.
pub struct Taken<'a, T> {
    mark: PhantomData<&'a mut T>,
}

impl<'a, T> Cells<'a, T> {
    /// `take_part`, and what `put_back` needs to put the part and the rest together again.
    ///
    /// Of 7 8 9 with the first and third chosen: one may write 7 and 9, the other 8. The project's own.
    ///
    /// <details><summary>Contract (proved)</summary>
    ///
    /// ```text
    /// requires IsTrue (are_within chosen self.old.marks)
    /// ```
    /// [How to read it](crate::contracts)
    /// </details>
    #[inline]
    pub fn lend_part<V>(&mut self, _by: &V) -> (Self, Taken<'a, T>) {
        (Cells { first: self.first, mark: PhantomData }, Taken { mark: PhantomData })
    }

    /// A part is put back. The caller ensures that it and the rest are those that `lend_part` left.
    ///
    /// Of 7 8 9, 8 stays, and 7 and 9 come back as 1 and 2: 1 8 2. The project's own.
    #[inline]
    pub fn put_back(&mut self, part: Self, taken: Taken<'a, T>) {
        let Taken { mark: _ } = taken;
        let Cells { first: _, mark: _ } = part;
    }
}
