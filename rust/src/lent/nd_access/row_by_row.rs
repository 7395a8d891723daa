// Made by `rust/erase` of `crates/nd_access/src/row_by_row.rt`: edit that.
//! Iterators over items that are lent, whose rows come at once.

use crate::lent::nd_access::rows::LentRow;

/// Iterators over items that are lent, which give them row by row as well.
pub trait RowByRow<'a, T: 'a> {
    /// The items that come next and lie evenly, at once: what is left of the row in progress, or else the next row; `None` after
    /// the last item.
    ///
    /// <details><summary>Contract (proved)</summary>
    ///
    /// ```text
    /// ensures MatchOption result ((left self.old ≡ []) × (left self.new ≡ []))
    ///     (λ row. (0 < row.row.len) × (left self.old ≡ row_items row ++ left self.new))
    /// ```
    /// [How to read it](crate::contracts)
    /// </details>
    fn next_row(&mut self) -> Option<LentRow<'a, T>>;

    /// The last items that lie evenly, at once: what is left of the row in progress at the back, or else the last row; `None` before
    /// the first item.
    ///
    /// <details><summary>Contract (proved)</summary>
    ///
    /// ```text
    /// ensures MatchOption result ((left self.old ≡ []) × (left self.new ≡ []))
    ///     (λ row. (0 < row.row.len) × (left self.old ≡ left self.new ++ row_items row))
    /// ```
    /// [How to read it](crate::contracts)
    /// </details>
    fn next_row_back(&mut self) -> Option<LentRow<'a, T>>;
}
