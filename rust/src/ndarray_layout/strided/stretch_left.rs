// Made by `rust/erase` of `crates/ndarray_layout/src/strided/stretch_left.rt`: edit that.
//! Places that follow one another, from both ends.

use crate::ndarray_layout::strided::rows::Row;

/// Places that follow one another and are still to come: those from `start` on that are less than `end`.
#[derive(Clone)]
pub(crate) struct Stretch {
    start: usize,
    end: usize,
}

impl Stretch {
    /// The places of a row, where they follow one another.
    ///
    /// <details><summary>Contract (proved)</summary>
    ///
    /// ```text
    /// requires in_bounds: All (IsInBounds (2 ^ 63)) (row_places row.start row.stride row.len)
    /// requires some: 0 < row.len
    /// requires few: row.len ≤ limit
    /// ensures IfSome result (λ left. left ≡ row_places row.start row.stride row.len)
    /// ```
    /// [How to read it](crate::contracts)
    /// </details>
    #[inline]
    pub(super) fn of_row(row: Row) -> Option<Self> {
        if row.stride != 1 {
            return None;
        }
        Some(Stretch { start: row.start, end: row.start + row.len })
    }

    /// All that are left, as a row; `None` where none is.
    ///
    /// <details><summary>Contract (proved)</summary>
    ///
    /// ```text
    /// ensures front: MatchOption result ((self.old ≡ []) × (self.new ≡ [])) (λ row. (0 < row.len)
    ///     × (self.old ≡ row_places row.start row.stride row.len ++ self.new))
    /// ensures back: MatchOption result ((self.old ≡ []) × (self.new ≡ [])) (λ row. (0 < row.len)
    ///     × (self.old ≡ self.new ++ row_places row.start row.stride row.len))
    /// ensures none: self.new ≡ []
    /// ensures row_is_view: IfSome result (λ row. IsView (row_view row))
    /// ```
    /// [How to read it](crate::contracts)
    /// </details>
    #[inline]
    pub(super) fn take_row(&mut self) -> Option<Row> {
        if self.start == self.end {
            return None;
        }
        let row = Row { start: self.start, stride: 1, len: self.end - self.start };
        self.start = self.end;
        Some(row)
    }

    /// The next one.
    ///
    /// <details><summary>Contract (proved)</summary>
    ///
    /// ```text
    /// ensures MatchOption result ((self.old ≡ []) × (self.new ≡ [])) (λ place. self.old ≡ pos place ∷ self.new)
    /// ```
    /// [How to read it](crate::contracts)
    /// </details>
    #[inline(always)]
    pub(super) fn next(&mut self) -> Option<usize> {
        if self.start == self.end {
            return None;
        }
        let place = self.start;
        self.start += 1;
        Some(place)
    }

    /// The last one.
    ///
    /// <details><summary>Contract (proved)</summary>
    ///
    /// ```text
    /// ensures MatchOption result ((self.old ≡ []) × (self.new ≡ [])) (λ place. self.old ≡ self.new ++ pos place ∷ [])
    /// ```
    /// [How to read it](crate::contracts)
    /// </details>
    #[inline(always)]
    pub(super) fn next_back(&mut self) -> Option<usize> {
        if self.start == self.end {
            return None;
        }
        self.end -= 1;
        Some(self.end)
    }

    /// Skips the next `count`, or all that remain.
    ///
    /// <details><summary>Contract (proved)</summary>
    ///
    /// ```text
    /// ensures self.new ≡ drop count self.old
    /// ```
    /// [How to read it](crate::contracts)
    /// </details>
    #[inline]
    pub(super) fn advance(&mut self, count: usize) {
        self.start += count.min(self.end - self.start);
    }

    /// Skips the last `count`, or all that remain.
    ///
    /// <details><summary>Contract (proved)</summary>
    ///
    /// ```text
    /// ensures self.new ≡ take (length self.old - count) self.old
    /// ```
    /// [How to read it](crate::contracts)
    /// </details>
    #[inline]
    pub(super) fn advance_back(&mut self, count: usize) {
        self.end -= count.min(self.end - self.start);
    }

    /// Whether none is left.
    ///
    /// <details><summary>Contract (proved)</summary>
    ///
    /// ```text
    /// ensures IsTrue result ↔ (length self.now ≡ 0)
    /// ```
    /// [How to read it](crate::contracts)
    /// </details>
    #[inline]
    pub(super) fn has_ended(&self) -> bool {
        self.start == self.end
    }

    /// How many are left.
    ///
    /// <details><summary>Contract (proved)</summary>
    ///
    /// ```text
    /// ensures result ≡ length self.now
    /// ```
    /// [How to read it](crate::contracts)
    /// </details>
    #[inline]
    pub(super) fn len(&self) -> usize {
        self.end - self.start
    }
}
