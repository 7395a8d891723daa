// Made by `rust/erase` of `crates/ndarray_layout/src/strided/cropping.rt`: edit that.
//! A range of coordinates on each axis.

use crate::nd_base::{Lengths, index_offset};
use crate::ndarray_layout::strided::Strided;
use crate::ndarray_layout::strided::places::offset_place;

/// Whether two lists have as many numbers, and none of the first is greater than the one beside it.
///
/// <details><summary>Contract (proved)</summary>
///
/// ```text
/// ensures IsTrue result ↔ DifferencesFit highs.now lows.now
/// ```
/// [How to read it](crate::contracts)
/// </details>
#[inline(always)]
fn is_at_most(lows: &[usize], highs: &[usize]) -> bool {
    lows.len() == highs.len() && lows.iter().zip(highs).all(|(low, high)| low <= high)
}

/// Takes each start from the end beside it.
///
/// # Conditions
///
/// The caller ensures that there are as many, and that none is greater. Otherwise this call or a later one panics or
/// returns unspecified values.
///
/// <details><summary>Contract (proved)</summary>
///
/// ```text
/// requires DifferencesFit ends.old starts.now
/// ensures ends.new ≡ differences ends.old starts.now
/// ```
/// [How to read it](crate::contracts)
/// </details>
#[inline(always)]
fn subtract_starts(ends: &mut [usize], starts: &[usize]) {
    for axis in 0..starts.len() {
        ends[axis] -= starts[axis];
    }
}

/// How far a start moves: not at all where no coordinate lies below the end.
///
/// <details><summary>Contract (proved)</summary>
///
/// ```text
/// ensures result ≡ (if nat_lt start end then start else 0)
/// ```
/// [How to read it](crate::contracts)
/// </details>
#[inline(always)]
pub(super) fn moved_start(start: usize, end: usize) -> usize {
    if start < end { start } else { 0 }
}

/// Writes how far each start moves.
///
/// # Conditions
///
/// The caller ensures that there are as many ends. Otherwise this call or a later one panics or returns unspecified
/// values.
///
/// <details><summary>Contract (proved)</summary>
///
/// ```text
/// requires length starts.old ≡ length ends.now
/// ensures starts.new ≡ moved_starts starts.old ends.now
/// ```
/// [How to read it](crate::contracts)
/// </details>
#[inline(always)]
fn move_starts(starts: &mut [usize], ends: &[usize]) {
    for axis in 0..ends.len() {
        starts[axis] = moved_start(starts[axis], ends[axis]);
    }
}

impl<D: Lengths + Clone> Strided<D> {
    /// The view of the coordinates from `starts` to `ends`, one of each for each axis; `None` where there are more or
    /// fewer, a start is greater than its end, or an end greater than the length of its axis. No element is moved.
    ///
    /// The strides are unchanged. The start moves to the first coordinate of each axis that keeps one, as it does in
    /// `slice` by these ranges. Takes no memory, and time in proportion to the count of axes.
    ///
    /// From (1,1) to (3,2) of `[4,3]`, `[3,1]` from 0: `[2,1]`, `[3,1]` from 4. In place of ndarray's `slice` by
    /// ranges.
    ///
    /// # Examples
    ///
    /// ```
    /// use ndarray_layout::{CanIndexCheckMode, Ix2, LayoutError, Strided};
    ///
    /// # fn main() -> Result<(), LayoutError> {
    /// let view = Strided::new(Ix2(4, 3), Ix2(3, 1), 1, 12, CanIndexCheckMode::ReadOnly)?;
    /// let part = view.crop(&Ix2(1, 1), &Ix2(3, 2));
    /// let numbers = part.map(|part| (part.start(), *part.dim(), *part.strides()));
    /// assert_eq!(numbers, Some((4, Ix2(2, 1), Ix2(3, 1))));
    /// assert_eq!(view.crop(&Ix2(1, 1), &Ix2(5, 2)), None);
    /// # Ok(())
    /// # }
    /// ```
    ///
    /// <details><summary>Contract (proved)</summary>
    ///
    /// ```text
    /// ensures found: IsSome result ↔ RangesFit self.now.shape (D.list starts.now) (D.list ends.now)
    /// ensures cropped: IfSome result (λ v. v ≡ cropped_of (D.list starts.now) (D.list ends.now) self.now)
    /// ensures kept: IfSome result (Descends (crop_source (D.list starts.now)) self.now)
    /// ```
    /// [How to read it](crate::contracts)
    /// </details>
    #[must_use]
    #[inline]
    pub fn crop(&self, starts: &D, ends: &D) -> Option<Self> {
        if !is_at_most(starts.slice(), ends.slice()) || !is_at_most(ends.slice(), self.dim.slice()) {
            return None;
        }
        let mut dim = ends.clone();
        subtract_starts(dim.slice_mut(), starts.slice());
        let mut moved = starts.clone();
        move_starts(moved.slice_mut(), ends.slice());
        let offset = index_offset(moved.slice(), self.strides.slice());
        let start = offset_place(self.start, offset);
        Some(Strided { start, dim, strides: self.strides.clone() })
    }
}
