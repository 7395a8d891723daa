// Made by `rust/erase` of `crates/nd_base/src/elementwise.rt`: edit that.
//! The arithmetic of lists of lengths, number by number.

/// Adds the numbers of `others`, of which there are as many.
#[inline]
pub(crate) fn add_to(lens: &mut [usize], others: &[usize]) {
    for (axis, other) in others.iter().enumerate() {
        lens[axis] += other;
    }
}

/// Subtracts the numbers of `others`, of which there are as many.
///
/// <details><summary>Contract (proved)</summary>
///
/// ```text
/// requires DifferencesFit lens.old others.now
/// ensures lens.new ≡ differences lens.old others.now
/// ```
/// [How to read it](crate::contracts)
/// </details>
#[inline]
pub(crate) fn subtract_from(lens: &mut [usize], others: &[usize]) {
    for (axis, other) in others.iter().enumerate() {
        lens[axis] -= other;
    }
}

/// Multiplies by the numbers of `others`, of which there are as many.
///
/// <details><summary>Contract (proved)</summary>
///
/// ```text
/// requires ProductsFit lens.old others.now
/// ensures lens.new ≡ products lens.old others.now
/// ```
/// [How to read it](crate::contracts)
/// </details>
#[inline]
pub(crate) fn multiply_by(lens: &mut [usize], others: &[usize]) {
    for (axis, other) in others.iter().enumerate() {
        lens[axis] *= other;
    }
}

/// Multiplies each number by one factor.
///
/// <details><summary>Contract (proved)</summary>
///
/// ```text
/// requires ScaledFit lens.old factor
/// ensures lens.new ≡ scaled lens.old factor
/// ```
/// [How to read it](crate::contracts)
/// </details>
#[inline]
pub(crate) fn scale(lens: &mut [usize], factor: usize) {
    for len in lens.iter_mut() {
        *len *= factor;
    }
}
