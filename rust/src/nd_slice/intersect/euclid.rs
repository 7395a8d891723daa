// Made by `rust/erase` of `crates/nd_slice/src/intersect/euclid.rt`: edit that.
//! The greatest common divisor of two numbers, as a sum of multiples of them.

/// The greatest common divisor of two numbers, and two Bezout coefficients without their signs: these
/// multiples of the numbers differ by the divisor.
#[derive(Clone, Copy)]
pub(crate) struct BezoutCoefficients {
    pub(crate) gcd: usize,
    /// What the first number is multiplied by.
    pub(crate) first: usize,
    /// What the second number is multiplied by.
    pub(crate) second: usize,
    /// Whether the multiple of the first number is the greater one.
    pub(crate) first_is_greater: bool,
}

/// Finds the greatest common divisor of two numbers and its Bezout coefficients, by Euclid's steps.
///
/// <details><summary>Contract (proved)</summary>
///
/// ```text
/// requires first_some: 0 < a
/// requires first_small: a ≤ 2 ^ 63
/// requires second_some: 0 < b
/// requires second_small: b ≤ 2 ^ 63
/// ensures gcd: IsGcd a b result.gcd
/// ensures apart: result.first * a + (if result.first_is_greater then 0 else result.gcd)
///     ≡ result.second * b + (if result.first_is_greater then result.gcd else 0)
/// ensures first_within: result.first * result.gcd ≤ b
/// ensures second_within: result.second * result.gcd ≤ a
/// ```
/// [How to read it](crate::contracts)
/// </details>
#[inline]
pub(crate) fn common_divisor(a: usize, b: usize) -> BezoutCoefficients {
    let mut gcd = a;
    let mut rest = b;
    let mut first = 1;
    let mut next_first = 0;
    let mut second = 0;
    let mut next_second = 1;
    let mut first_is_greater = true;
    while rest != 0 {
        let times = gcd / rest;
        let next_rest = gcd % rest;
        gcd = rest;
        rest = next_rest;
        let after_first = first + times * next_first;
        first = next_first;
        next_first = after_first;
        let after_second = second + times * next_second;
        second = next_second;
        next_second = after_second;
        first_is_greater = !first_is_greater;
    }
    BezoutCoefficients { gcd, first, second, first_is_greater }
}

/// The number of that magnitude and sign.
///
/// <details><summary>Contract (proved)</summary>
///
/// ```text
/// ensures result ≡ with_sign_of magnitude negative
/// ```
/// [How to read it](crate::contracts)
/// </details>
#[inline]
fn with_sign(magnitude: usize, negative: bool) -> i128 {
    if negative { -(magnitude as i128) } else { magnitude as i128 }
}

/// The greatest common divisor `g` of two numbers, and `x` and `y` for which `a * x + b * y` is
/// `g`.
///
/// Neither is `x` above `b / g` in magnitude nor `y` above `a / g`. Where a number is 0, `g` is the magnitude of the
/// other one, whose factor is its sign, and the factor of 0 is 0.
///
/// Takes time in proportion to the count of bits.
///
/// 0 and -5: 5, and (0, -1). ndarray's `extended_gcd`.
///
/// # Conditions
///
/// The caller ensures that both magnitudes are at most 2^63. Otherwise this call or a later one panics or returns
/// unspecified values.
///
/// <details><summary>Contract (proved)</summary>
///
/// ```text
/// requires first_small: magnitude a ≤ 2 ^ 63
/// requires second_small: magnitude b ≤ 2 ^ 63
/// ensures non_negative: pos 0 ≤ℤ result.0
/// ensures gcd: IsGcd (magnitude a) (magnitude b) (magnitude result.0)
/// ensures sum: (a *ℤ result.1.0) +ℤ (b *ℤ result.1.1) ≡ result.0
/// ensures first_zero: a ≡ pos 0 → result.1 ≡ record { 0 = pos 0; 1 = int_signum b }
/// ensures second_zero: a ≢ pos 0 → b ≡ pos 0 → result.1 ≡ record { 0 = int_signum a; 1 = pos 0 }
/// ensures first_within: a ≢ pos 0 → b ≢ pos 0 → magnitude result.1.0 ≤ magnitude b / magnitude result.0
/// ensures second_within: a ≢ pos 0 → b ≢ pos 0 → magnitude result.1.1 ≤ magnitude a / magnitude result.0
/// ```
/// [How to read it](crate::contracts)
/// </details>
#[inline]
#[must_use]
pub fn extended_gcd(a: i128, b: i128) -> (i128, (i128, i128)) {
    if a == 0 {
        (b.abs(), (0i128, b.signum()))
    } else if b == 0 {
        (a.abs(), (a.signum(), 0i128))
    } else {
        let found = common_divisor(a.unsigned_abs() as usize, b.unsigned_abs() as usize);
        let x = with_sign(found.first, (a < 0) == found.first_is_greater);
        let y = with_sign(found.second, (b < 0) != found.first_is_greater);
        (found.gcd as i128, (x, y))
    }
}
