// Made by `rust/erase` of `crates/nd_access/src/cells/parts.rt`: edit that.
//! The right to the elements at the places of a view, taken of that to more.

use crate::lent::nd_access::cells::Cells;
use crate::ndarray_layout::{Lengths, Strided};

impl<'a, T> Cells<'a, T> {
    /// The right to the elements at the places of a view, for as long as the whole is lent; that to the others stays.
    ///
    /// Of 7 8 9 by `[2]`, `[2]` from 0: one may write 7 and 9, the other 8. The project's own.
    ///
    /// # Conditions
    ///
    /// The caller ensures that each index has a place to itself, which has a mark. Otherwise the behaviour is
    /// undefined.
    ///
    /// <details><summary>Contract (proved)</summary>
    ///
    /// ```text
    /// requires IsPart self.old.marks view.now
    /// ensures items: result.items ≡ self.old.items
    /// ensures part: IsPart result.marks view.now
    /// ensures kept: self.new.items ≡ self.old.items
    /// ensures left: self.new.marks ≡ without (marks_of (length self.old.marks) view.now) self.old.marks
    /// ```
    /// [How to read it](crate::contracts)
    /// </details>
    #[inline]
    pub fn take_view<D: Lengths>(&mut self, view: &Strided<D>) -> Self {
        self.take_part(view)
    }
}
