// Made by `rust/erase` of `crates/ndarray_layout/src/strided/row_at_back.rt`: edit that.
//! A row that has begun at the back, from which the last places come.

use crate::nd_base::unsigned;
use crate::ndarray_layout::strided::places::{offset_place, place_along_axis};
use crate::ndarray_layout::strided::rows::Row;

/// What is left of a row that has begun at the back.
#[derive(Clone)]
pub(super) struct RowAtBack {
    // What is left, and the place that came last, after it.
    row: Row,
    last: usize,
}

impl RowAtBack {
    /// None has begun.
    ///
    /// <details><summary>Contract (proved)</summary>
    ///
    /// ```text
    /// ensures result.len ≡ 0
    /// ```
    /// [How to read it](crate::contracts)
    /// </details>
    #[inline]
    pub(super) fn none() -> Self {
        let row = Row { start: 0, stride: 0, len: 0 };
        RowAtBack { row, last: 0 }
    }

    /// The row without its last place, and that place.
    ///
    /// <details><summary>Contract (proved)</summary>
    ///
    /// ```text
    /// requires in_bounds: All (IsInBounds (2 ^ 63)) (row_places row.start row.stride row.len)
    /// requires some: 0 < row.len
    /// requires few: row.len ≤ limit
    /// ensures left: result.0 ≡ but_last row
    /// ensures place: pos result.1 ≡ pos row.start +ℤ (pos (row.len - 1) *ℤ row.stride)
    /// ```
    /// [How to read it](crate::contracts)
    /// </details>
    #[inline]
    pub(super) fn of_row(row: Row) -> (Self, usize) {
        let left = row.len - 1;
        let last = place_along_axis(row.start, left, unsigned(row.stride));
        let row = Row { start: row.start, stride: row.stride, len: left };
        (RowAtBack { row, last }, last)
    }

    /// How many places are left.
    ///
    /// <details><summary>Contract (proved)</summary>
    ///
    /// ```text
    /// ensures result ≡ self.now.len
    /// ```
    /// [How to read it](crate::contracts)
    /// </details>
    #[inline]
    pub(super) fn len(&self) -> usize {
        self.row.len
    }

    /// All that are left, as a row; `None` where none is.
    ///
    /// <details><summary>Contract (proved)</summary>
    ///
    /// ```text
    /// ensures row: MatchOption result (self.old.len ≡ 0) (λ row. (0 < row.len) × (row ≡ self.old))
    /// ensures none: self.new.len ≡ 0
    /// ```
    /// [How to read it](crate::contracts)
    /// </details>
    #[inline]
    pub(super) fn take(&mut self) -> Option<Row> {
        if self.row.len == 0 {
            return None;
        }
        let row = self.row;
        self.row.len = 0;
        Some(row)
    }

    /// The last one.
    ///
    /// <details><summary>Contract (proved)</summary>
    ///
    /// ```text
    /// requires All (IsInBounds (2 ^ 63)) (row_places self.old.start self.old.stride self.old.len)
    /// ensures MatchOption result ((self.old.len ≡ 0) × (self.new ≡ self.old)) (λ place. (0 < self.old.len)
    ///     × (self.new ≡ but_last self.old)
    ///     × (pos place ≡ pos self.old.start +ℤ (pos (self.old.len - 1) *ℤ self.old.stride)))
    /// ```
    /// [How to read it](crate::contracts)
    /// </details>
    #[inline(always)]
    pub(super) fn next_back(&mut self) -> Option<usize> {
        if self.row.len == 0 {
            return None;
        }
        self.row.len -= 1;
        self.last = offset_place(self.last, -self.row.stride);
        Some(self.last)
    }

    /// Skips the next `count`, or all that remain.
    ///
    /// <details><summary>Contract (proved)</summary>
    ///
    /// ```text
    /// requires in_bounds: All (IsInBounds (2 ^ 63)) (row_places self.old.start self.old.stride self.old.len)
    /// requires few: self.old.len ≤ limit
    /// ensures row_places self.new.start self.new.stride self.new.len
    ///     ≡ drop count (row_places self.old.start self.old.stride self.old.len)
    /// ```
    /// [How to read it](crate::contracts)
    /// </details>
    #[inline]
    pub(super) fn advance(&mut self, count: usize) {
        if count >= self.row.len {
            self.row.len = 0;
            return;
        }
        self.row.start = place_along_axis(self.row.start, count, unsigned(self.row.stride));
        self.row.len -= count;
    }

    /// Skips the last `count`.
    ///
    /// # Conditions
    ///
    /// The caller ensures that there are as many. Otherwise this call or a later one panics or returns unspecified
    /// values.
    ///
    /// <details><summary>Contract (proved)</summary>
    ///
    /// ```text
    /// requires in_bounds: All (IsInBounds (2 ^ 63)) (row_places self.old.start self.old.stride self.old.len)
    /// requires few: self.old.len ≤ limit
    /// requires left: count ≤ self.old.len
    /// ensures self.new ≡ record self.old { len = self.old.len - count }
    /// ```
    /// [How to read it](crate::contracts)
    /// </details>
    #[inline]
    pub(super) fn advance_back(&mut self, count: usize) {
        if count == 0 {
            return;
        }
        self.row.len -= count;
        self.last = place_along_axis(self.row.start, self.row.len, unsigned(self.row.stride));
    }
}
