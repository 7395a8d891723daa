// Made by `rust/erase` of `crates/nd_slice/src/slice/builders.rt`: edit that.
//! Slices from ranges that need a condition.

use super::Slice;

/// The number that a range stops before where `last` is its last coordinate; none where that is -1, the last
/// coordinate of the axis.
///
/// <details><summary>Contract (proved)</summary>
///
/// ```text
/// requires last <ℤ pos limit
/// ensures result ≡ end_after last
/// ```
/// [How to read it](crate::contracts)
/// </details>
#[inline]
fn end_after(last: isize) -> Option<isize> {
    if last == -1 { None } else { Some(last + 1) }
}

impl Slice {
    /// The range of the coordinates from `first` to `last`, both included. A negative one counts
    /// from the end of the axis.
    ///
    /// 1 and -1: `1..`. For ndarray's `From` of `a..=b`.
    ///
    /// # Conditions
    ///
    /// The caller ensures that `last` is below `isize::MAX`. Otherwise this call or a later one panics or returns
    /// unspecified values.
    ///
    /// <details><summary>Contract (proved)</summary>
    ///
    /// ```text
    /// requires last <ℤ pos limit
    /// ensures result ≡ slice_with first (end_after last) (pos 1)
    /// ```
    /// [How to read it](crate::contracts)
    /// </details>
    #[must_use]
    #[inline]
    pub fn inclusive(first: isize, last: isize) -> Slice {
        Slice { start: first, end: end_after(last), step: 1 }
    }

    /// The range of the coordinates up to `last`, included. A negative one counts from the end of
    /// the axis.
    ///
    /// 2: `..3`. For ndarray's `From` of `..=b`.
    ///
    /// # Conditions
    ///
    /// The caller ensures that `last` is below `isize::MAX`. Otherwise this call or a later one panics or returns
    /// unspecified values.
    ///
    /// <details><summary>Contract (proved)</summary>
    ///
    /// ```text
    /// requires last <ℤ pos limit
    /// ensures result ≡ slice_with (pos 0) (end_after last) (pos 1)
    /// ```
    /// [How to read it](crate::contracts)
    /// </details>
    #[must_use]
    #[inline]
    pub fn to_inclusive(last: isize) -> Slice {
        Slice::inclusive(0, last)
    }

    /// The range of the coordinates from `start` up to, not including, `end`, both counted from the
    /// first one.
    ///
    /// 1 and 3: `1..3`. For ndarray's `From` of `a..b` over `usize`.
    ///
    /// # Conditions
    ///
    /// The caller ensures that both are at most `isize::MAX`. Otherwise this call or a later one panics or returns
    /// unspecified values.
    ///
    /// <details><summary>Contract (proved)</summary>
    ///
    /// ```text
    /// requires start_fits: start ≤ limit
    /// requires end_fits: end ≤ limit
    /// ensures result ≡ slice_with (pos start) (Some (pos end)) (pos 1)
    /// ```
    /// [How to read it](crate::contracts)
    /// </details>
    #[must_use]
    #[inline]
    pub fn of_usize(start: usize, end: usize) -> Slice {
        Slice { start: start as isize, end: Some(end as isize), step: 1 }
    }

    /// The range of the coordinates from `start` on, counted from the first one.
    ///
    /// 1: `1..`. For ndarray's `From` of `a..` over `usize`.
    ///
    /// # Conditions
    ///
    /// The caller ensures that `start` is at most `isize::MAX`. Otherwise this call or a later one panics or returns
    /// unspecified values.
    ///
    /// <details><summary>Contract (proved)</summary>
    ///
    /// ```text
    /// requires start ≤ limit
    /// ensures result ≡ slice_with (pos start) None (pos 1)
    /// ```
    /// [How to read it](crate::contracts)
    /// </details>
    #[must_use]
    #[inline]
    pub fn from_usize(start: usize) -> Slice {
        Slice { start: start as isize, end: None, step: 1 }
    }

    /// The range of the coordinates up to, not including, `end`, counted from the first one.
    ///
    /// 3: `..3`. For ndarray's `From` of `..b` over `usize`.
    ///
    /// # Conditions
    ///
    /// The caller ensures that `end` is at most `isize::MAX`. Otherwise this call or a later one panics or returns
    /// unspecified values.
    ///
    /// <details><summary>Contract (proved)</summary>
    ///
    /// ```text
    /// requires end ≤ limit
    /// ensures result ≡ slice_with (pos 0) (Some (pos end)) (pos 1)
    /// ```
    /// [How to read it](crate::contracts)
    /// </details>
    #[must_use]
    #[inline]
    pub fn to_usize(end: usize) -> Slice {
        Slice::of_usize(0, end)
    }

    /// The range of the coordinates from `first` to `last`, both included and counted from the
    /// first one.
    ///
    /// 1 and 2: `1..3`. For ndarray's `From` of `a..=b` over `usize`.
    ///
    /// # Conditions
    ///
    /// The caller ensures that `first` is at most `isize::MAX` and `last` below it. Otherwise this call or a later one
    /// panics or returns unspecified values.
    ///
    /// <details><summary>Contract (proved)</summary>
    ///
    /// ```text
    /// requires first_fits: first ≤ limit
    /// requires last_fits: last < limit
    /// ensures result ≡ slice_with (pos first) (Some (pos (last + 1))) (pos 1)
    /// ```
    /// [How to read it](crate::contracts)
    /// </details>
    #[must_use]
    #[inline]
    pub fn inclusive_usize(first: usize, last: usize) -> Slice {
        Slice::of_usize(first, last + 1)
    }

    /// The range of the coordinates up to `last`, included and counted from the first one.
    ///
    /// 2: `..3`. For ndarray's `From` of `..=b` over `usize`.
    ///
    /// # Conditions
    ///
    /// The caller ensures that `last` is below `isize::MAX`. Otherwise this call or a later one panics or returns
    /// unspecified values.
    ///
    /// <details><summary>Contract (proved)</summary>
    ///
    /// ```text
    /// requires last < limit
    /// ensures result ≡ slice_with (pos 0) (Some (pos (last + 1))) (pos 1)
    /// ```
    /// [How to read it](crate::contracts)
    /// </details>
    #[must_use]
    #[inline]
    pub fn to_inclusive_usize(last: usize) -> Slice {
        Slice::inclusive_usize(0, last)
    }
}
