// Made by `rust/erase` of `crates/nd_dim/src/last_len.rt`: edit that.
//! The length of the last axis.

/// The length of the last axis, or 0 where there is none.
#[inline]
pub(crate) fn last_len(lens: &[usize]) -> usize {
    lens.last().copied().unwrap_or(0)
}

/// Gives the last axis another length.
///
/// <details><summary>Contract (proved)</summary>
///
/// ```text
/// requires 0 < length lens.old
/// ensures lens.new ≡ slice_set lens.old (length lens.old - 1) len
/// ```
/// [How to read it](crate::contracts)
/// </details>
#[inline]
pub(crate) fn set_last_len(lens: &mut [usize], len: usize) {
    let last = lens.len() - 1;
    lens[last] = len;
}
