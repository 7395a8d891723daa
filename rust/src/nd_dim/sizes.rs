// Made by `rust/erase` of `crates/nd_dim/src/sizes.rt`: edit that.
//! Products of lengths.

/// The product of the lengths, where it fits; 0 wherever one of them is 0.
#[inline]
pub(crate) fn checked_size(lens: &[usize]) -> Option<usize> {
    if lens.contains(&0) {
        return Some(0);
    }
    let mut size = 1usize;
    for len in lens {
        size = size.checked_mul(*len)?;
    }
    Some(size)
}

/// The product of the lengths; 0 where one of them is 0.
///
/// Takes time in proportion to the count of lengths.
///
/// `[2,3]`: 6. What `Dimension::size` returns, of a list. The project's own.
///
/// # Conditions
///
/// The caller ensures that it is below 2^64. Otherwise this call or a later one panics or returns unspecified values.
///
/// <details><summary>Contract (proved)</summary>
///
/// ```text
/// requires size lens.now < 2 ^ 64
/// ensures result ≡ size lens.now
/// ```
/// [How to read it](crate::contracts)
/// </details>
#[inline]
#[must_use]
pub fn product(lens: &[usize]) -> usize {
    if lens.contains(&0) {
        return 0;
    }
    let mut size = 1usize;
    for len in lens {
        size *= *len;
    }
    size
}
