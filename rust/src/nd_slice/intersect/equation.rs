// Made by `rust/erase` of `crates/nd_slice/src/intersect/equation.rt`: edit that.
//! Equations in whole numbers.

use crate::nd_slice::intersect::multiplier::least_multiplier;

/// What has to be added to a multiple of the magnitude of `a` to leave a multiple of the other number.
///
/// <details><summary>Contract (proved)</summary>
///
/// ```text
/// requires magnitude c ≤ 2 ^ 64
/// ensures result ≡ added_of a c
/// ```
/// [How to read it](crate::contracts)
/// </details>
#[inline]
fn added(a: i128, c: i128) -> i128 {
    if a < 0 { c } else { -c }
}

/// Solves `a * x + b * y = c` in whole numbers: the least `x` that is not negative, and the
/// distance between two solutions, which is |b| divided by the greatest common divisor of `a` and
/// `b`; `None` if and only if that divisor does not divide `c`.
///
/// Takes time in proportion to the count of bits.
///
/// `3 * x + 5 * y = 1`: 2, and 5. ndarray's `solve_linear_diophantine_eq`, which returns any
/// solution.
///
/// # Conditions
///
/// The caller ensures that `a` and `b` are not 0 and at most 2^63 in magnitude, and `c` at most 2^64. Otherwise this
/// call or a later one panics or returns unspecified values.
///
/// <details><summary>Contract (proved)</summary>
///
/// ```text
/// requires first_some: a ≢ pos 0
/// requires first_small: magnitude a ≤ 2 ^ 63
/// requires second_some: b ≢ pos 0
/// requires second_small: magnitude b ≤ 2 ^ 63
/// requires sum_small: magnitude c ≤ 2 ^ 64
/// ensures solvable: (g : ℕ) → IsGcd (magnitude a) (magnitude b) g → (IsSome result ↔ (g ∣ magnitude c))
/// ensures least: IfSome result (λ (least, apart). IsLeastSolution a b c least)
/// ensures apart: IfSome result (λ (least, apart). (g : ℕ) → IsGcd (magnitude a) (magnitude b) g →
///     apart ≡ pos (magnitude b / g))
/// ensures within: IfSome result (λ (least, apart). least <ℤ apart)
/// ```
/// [How to read it](crate::contracts)
/// </details>
#[inline]
#[must_use]
pub fn solve_linear_diophantine_eq(a: i128, b: i128, c: i128) -> Option<(i128, i128)> {
    let rest = added(a, c).rem_euclid(b.abs()) as usize;
    let found = least_multiplier(a.unsigned_abs() as usize, b.unsigned_abs() as usize, rest);
    match found {
        Some((least, apart)) => Some((least as i128, apart as i128)),
        None => None,
    }
}
