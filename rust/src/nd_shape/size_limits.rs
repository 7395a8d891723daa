// Made by `rust/erase` of `crates/nd_shape/src/size_limits.rt`: edit that.
//! Products and sums that stay within the limit of sizes and spans.

use crate::nd_base::signed;

/// The number, where it is at most the greatest `isize`.
///
/// <details><summary>Contract (proved)</summary>
///
/// ```text
/// ensures SomeIff result (n ≤ limit) n
/// ```
/// [How to read it](crate::contracts)
/// </details>
#[inline(always)]
fn within_limit(n: usize) -> Option<usize> {
    (n <= isize::MAX as usize).then_some(n)
}

/// The product, where it is at most the greatest `isize`.
///
/// <details><summary>Contract (proved)</summary>
///
/// ```text
/// ensures SomeIff result (a * b ≤ limit) (a * b)
/// ```
/// [How to read it](crate::contracts)
/// </details>
#[inline(always)]
pub(crate) fn multiply(a: usize, b: usize) -> Option<usize> {
    let product = a as u128 * b as u128;
    if product <= isize::MAX as u128 { Some(product as usize) } else { None }
}

/// The product of the lengths that are not 0, where it is at most the greatest `isize`.
///
/// <details><summary>Contract (proved)</summary>
///
/// ```text
/// ensures SomeIff result (nonzero_size shape.now ≤ limit) (nonzero_size shape.now)
/// ```
/// [How to read it](crate::contracts)
/// </details>
#[inline(always)]
pub(crate) fn checked_nonzero_size(shape: &[usize]) -> Option<usize> {
    let mut size = 1usize;
    for len in shape {
        if *len != 0 {
            size = multiply(size, *len)?;
        }
    }
    Some(size)
}

/// The distance in elements from the first to the last coordinate of an axis, where that is at most
/// the greatest `isize`.
///
/// <details><summary>Contract (proved)</summary>
///
/// ```text
/// ensures SomeIff result
///     (reach_of_axis len (signed_reading stride) ≤ limit)
///     (reach_of_axis len (signed_reading stride))
/// ```
/// [How to read it](crate::contracts)
/// </details>
#[inline(always)]
fn checked_reach(len: usize, stride: usize) -> Option<usize> {
    multiply(len.saturating_sub(1), signed(stride).unsigned_abs())
}

/// How many elements lie between the lowest and the highest index, where that is at most the
/// greatest `isize`.
///
/// <details><summary>Contract (proved)</summary>
///
/// ```text
/// ensures SomeIff result (span shape.now (all_signed strides.now) ≤ limit) (span shape.now (all_signed strides.now))
/// ```
/// [How to read it](crate::contracts)
/// </details>
#[inline(always)]
pub(crate) fn checked_span(shape: &[usize], strides: &[usize]) -> Option<usize> {
    let mut span = 0usize;
    for (len, stride) in shape.iter().zip(strides) {
        span = within_limit(span + checked_reach(*len, *stride)?)?;
    }
    Some(span)
}

/// The distance in elements from the first to the last coordinate of an axis.
///
/// <details><summary>Contract (proved)</summary>
///
/// ```text
/// requires reach_of_axis len stride ≤ limit
/// ensures result ≡ reach_of_axis len stride
/// ```
/// [How to read it](crate::contracts)
/// </details>
#[inline(always)]
pub(crate) fn reach(len: usize, stride: isize) -> usize {
    len.saturating_sub(1) * stride.unsigned_abs()
}
