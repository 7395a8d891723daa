// Made by `rust/erase` of `crates/nd_slice/src/intersect/multiplier.rt`: edit that.
//! The least multiple of a number that a rest completes to a multiple of another.

use crate::nd_slice::intersect::euclid::common_divisor;

/// The remainder of a product, which may be too large for a number of 64 bits.
///
/// <details><summary>Contract (proved)</summary>
///
/// ```text
/// requires 0 < modulus
/// ensures result ≡ (x * y) % modulus
/// ```
/// [How to read it](crate::contracts)
/// </details>
#[inline]
fn multiply_mod(x: usize, y: usize, modulus: usize) -> usize {
    match x.checked_mul(y) {
        Some(product) => product % modulus,
        None => (x as u128 * y as u128 % modulus as u128) as usize,
    }
}

/// The greatest common divisor of two numbers, and a multiplier of the first one: that multiple is
/// the divisor plus a multiple of the second one.
///
/// <details><summary>Contract (proved)</summary>
///
/// ```text
/// requires factor_some: 0 < factor
/// requires factor_small: factor ≤ 2 ^ 63
/// requires modulus_some: 0 < modulus
/// requires modulus_small: modulus ≤ 2 ^ 63
/// ensures gcd: IsGcd factor modulus result.0
/// ensures inverse: (times : ℕ) × (factor * result.1 ≡ result.0 + times * modulus)
/// ```
/// [How to read it](crate::contracts)
/// </details>
#[inline]
fn inverse(factor: usize, modulus: usize) -> (usize, usize) {
    let found = common_divisor(factor, modulus);
    if found.first_is_greater { (found.gcd, found.first) } else { (found.gcd, modulus / found.gcd - found.first) }
}

/// The least number whose product with `factor` and `rest` are together a multiple of `modulus`, and
/// how far apart such numbers lie; `None` where there is none.
///
/// <details><summary>Contract (proved)</summary>
///
/// ```text
/// requires factor_some: 0 < factor
/// requires factor_small: factor ≤ 2 ^ 63
/// requires modulus_some: 0 < modulus
/// requires modulus_small: modulus ≤ 2 ^ 63
/// ensures solvable: (g : ℕ) → IsGcd factor modulus g → (IsSome result ↔ (g ∣ rest))
/// ensures none: IfNone result ((number : ℕ) → ¬ (modulus ∣ factor * number + rest))
/// ensures least: IfSome result (λ (least, apart). IsLeastMultiplier factor modulus rest least)
/// ensures apart: IfSome result (λ (least, apart). (g : ℕ) → IsGcd factor modulus g → apart ≡ modulus / g)
/// ensures within: IfSome result (λ (least, apart). least < apart)
/// ```
/// [How to read it](crate::contracts)
/// </details>
#[inline]
pub(crate) fn least_multiplier(factor: usize, modulus: usize, rest: usize) -> Option<(usize, usize)> {
    let (gcd, multiplier) = inverse(factor, modulus);
    if rest % gcd != 0 {
        return None;
    }
    let apart = modulus / gcd;
    let back = multiply_mod(multiplier, rest / gcd, apart);
    let least = if back == 0 { 0 } else { apart - back };
    Some((least, apart))
}
