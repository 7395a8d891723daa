// Made by `rust/erase` of `crates/nd_base/src/signed_strides.rt`: edit that.
//! Strides: kept in a `usize`, with the meaning of an `isize`.

/// The stride that a `usize` keeps: the signed number of the same 64 bits.
///
/// 2^64 - 1: -1. The project's own.
#[must_use]
#[inline]
pub const fn signed(stride: usize) -> isize {
    stride as isize
}

/// The `usize` that keeps a stride: the unsigned number of the same 64 bits.
///
/// -1: 2^64 - 1. The project's own.
///
/// <details><summary>Contract (proved)</summary>
///
/// ```text
/// ensures same_bits: result ≡ unsigned_bits stride
/// ensures back: signed_reading result ≡ stride
/// ```
/// [How to read it](crate::contracts)
/// </details>
#[must_use]
#[inline]
pub const fn unsigned(stride: isize) -> usize {
    stride as usize
}

/// The offset in elements, with its sign, from coordinate 0 of an axis to coordinate `n`: `n` times
/// the stride.
///
/// 2 along the stride -3: -6. ndarray's `stride_offset`.
///
/// # Conditions
///
/// The caller ensures that `n` is below 2^63 and that the product fits an `isize`. Otherwise this call or a later one
/// panics or returns unspecified values.
///
/// <details><summary>Contract (proved)</summary>
///
/// ```text
/// requires small: n < 2 ^ 63
/// requires fits: FitsSigned w64 (pos n *ℤ signed_reading stride)
/// ensures result ≡ pos n *ℤ signed_reading stride
/// ```
/// [How to read it](crate::contracts)
/// </details>
#[must_use]
#[inline]
pub fn stride_offset(n: usize, stride: usize) -> isize {
    n as isize * signed(stride)
}

/// Whether a stride is that many times another one.
///
/// -6 of 2 and -3: true. The project's own.
///
/// # Conditions
///
/// The caller ensures that `n` is below 2^63. Otherwise this call or a later one panics or returns unspecified values.
///
/// <details><summary>Contract (proved)</summary>
///
/// ```text
/// requires n < 2 ^ 63
/// ensures IsTrue result ↔ (signed_reading stride ≡ pos n *ℤ signed_reading other)
/// ```
/// [How to read it](crate::contracts)
/// </details>
#[must_use]
#[inline(always)]
pub fn is_multiple(stride: usize, n: usize, other: usize) -> bool {
    // (128 bits hold the product of any two numbers of 64; two signed ones take one instruction)
    signed(stride) as i128 == signed(n) as i128 * signed(other) as i128
}
