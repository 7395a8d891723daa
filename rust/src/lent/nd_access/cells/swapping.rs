// Made by `rust/erase` of `crates/nd_access/src/cells/swapping.rt`: edit that.
//! Two elements of a slice that are swapped, whatever lies between them.

use crate::lent::nd_access::cells::Cells;
use core::mem::swap;

impl<'a, T> Cells<'a, T> {
    /// Swaps the elements at two places.
    ///
    /// Of 7 8 9, the first and the third: 9 8 7. The project's own.
    ///
    /// # Conditions
    ///
    /// The caller ensures that each has a mark. Otherwise the behaviour is undefined.
    ///
    /// <details><summary>Contract (proved)</summary>
    ///
    /// ```text
    /// requires one: IsTrue (get_or self.old.marks one false)
    /// requires other: IsTrue (get_or self.old.marks other false)
    /// ensures swapped: self.new.items ≡ swap self.old.items one other
    /// ```
    /// [How to read it](crate::contracts)
    /// </details>
    #[inline]
    pub fn swap(&mut self, one: usize, other: usize) {
        if one == other {
            return;
        }
        let (mut part, taken) = self.lend_part(&other);
        swap(self.item_mut(one), part.item_mut(other));
        self.put_back(part, taken);
    }
}
