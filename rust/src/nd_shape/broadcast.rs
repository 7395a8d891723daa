// Made by `rust/erase` of `crates/nd_shape/src/broadcast.rt`: edit that.
//! The shape that two shapes have in common.

use crate::nd_base::{ErrorKind, INLINE_AXES, LayoutError, Lengths, from_kind};

/// Whether two lengths of one axis are equal, or one of them is 1.
///
/// <details><summary>Contract (proved)</summary>
///
/// ```text
/// ensures result ≡ is_some (common_length len other)
/// ```
/// [How to read it](crate::contracts)
/// </details>
#[inline(always)]
fn go_together(len: usize, other: usize) -> bool {
    (len == other) | (len == 1) | (other == 1)
}

/// Whether two shapes have one in common, by NumPy's rule: aligned at their last axes, two lengths
/// of one axis are equal, or one of them is 1.
///
/// Takes time in proportion to the count of axes.
///
/// `[4,1,3]` and `[2,3]`: true; `[2]` and `[0]`: false. The test of ndarray's `co_broadcast`.
///
/// # Conditions
///
/// The caller ensures that the second list is no longer than the first. Otherwise this call or a later one panics or
/// returns unspecified values.
///
/// <details><summary>Contract (proved)</summary>
///
/// ```text
/// requires length shorter.now ≤ length longer.now
/// ensures result ≡ is_some (common_shape longer.now shorter.now)
/// ```
/// [How to read it](crate::contracts)
/// </details>
#[must_use]
#[inline(always)]
pub fn have_common_shape(longer: &[usize], shorter: &[usize]) -> bool {
    // (all axes are looked at, without branches: which lengths are 1 can't be foreseen)
    let first = longer.len() - shorter.len();
    let mut fits = true;
    for axis in 0..shorter.len() {
        fits &= go_together(longer[first + axis], shorter[axis]);
    }
    fits
}

/// The length of an axis, which is the other one where it is 1.
///
/// <details><summary>Contract (proved)</summary>
///
/// ```text
/// requires is_some (common_length len other) ≡ true
/// ensures common_length len other ≡ Some result
/// ```
/// [How to read it](crate::contracts)
/// </details>
#[inline(always)]
fn stretched(len: usize, other: usize) -> usize {
    if len == 1 { other } else { len }
}

/// Writes the common shape of two shapes over `common`: of two lengths of one axis their length
/// where they are equal, else the one that isn't 1.
///
/// Takes time in proportion to the count of axes.
///
/// `[4,1,3]` and `[2,3]`: `[4,2,3]`. What ndarray's `co_broadcast` makes.
///
/// # Conditions
///
/// The caller ensures that the shapes have one (`have_common_shape`), that the second list is no longer than the first,
/// and that `common` has as many lengths as the first. Otherwise this call or a later one panics or returns unspecified
/// values.
///
/// <details><summary>Contract (proved)</summary>
///
/// ```text
/// requires shorter: length shorter.now ≤ length longer.now
/// requires room: length common.old ≡ length longer.now
/// requires fits: is_some (common_shape longer.now shorter.now) ≡ true
/// ensures common_shape longer.now shorter.now ≡ Some common.new
/// ```
/// [How to read it](crate::contracts)
/// </details>
#[inline(always)]
pub fn fill_common_shape(longer: &[usize], shorter: &[usize], common: &mut [usize]) {
    let first = longer.len() - shorter.len();
    common[..first].copy_from_slice(&longer[..first]);
    for axis in 0..shorter.len() {
        common[first + axis] = stretched(longer[first + axis], shorter[axis]);
    }
}

/// The length that two axes have in common, if there is one, and whether there is.
///
/// <details><summary>Contract (proved)</summary>
///
/// ```text
/// ensures fits: result.1 ≡ is_some (common_length len other)
/// ensures common: OnTrue result.1 (common_length len other ≡ Some result.0)
/// ```
/// [How to read it](crate::contracts)
/// </details>
#[inline(always)]
fn join(len: usize, other: usize) -> (usize, bool) {
    let common = if len == 1 { other } else { len };
    (common, (common == other) | (other == 1))
}

/// Writes the common shape of two shapes over `common`, and returns whether there is one; where there is
/// none, what is written there means nothing.
///
/// <details><summary>Contract (proved)</summary>
///
/// ```text
/// requires shorter: length shorter.now ≤ length longer.now
/// requires room: length common.old ≡ length longer.now
/// ensures fits: result ≡ is_some (common_shape longer.now shorter.now)
/// ensures common: OnTrue result (common_shape longer.now shorter.now ≡ Some common.new)
/// ```
/// [How to read it](crate::contracts)
/// </details>
#[inline(always)]
fn join_shapes(longer: &[usize], shorter: &[usize], common: &mut [usize]) -> bool {
    let first = longer.len() - shorter.len();
    common[..first].copy_from_slice(&longer[..first]);
    let mut fits = true;
    for axis in 0..shorter.len() {
        let (len, is_common) = join(longer[first + axis], shorter[axis]);
        fits &= is_common;
        common[first + axis] = len;
    }
    fits
}

/// The common shape of a list of lengths and one that is no longer.
///
/// <details><summary>Contract (proved)</summary>
///
/// ```text
/// requires shorter: length shorter.now ≤ length longer.now
/// requires count: IsCount Output.NDIM (length longer.now)
/// ensures fault: shape_fault result ≡ common_shape_fault longer.now shorter.now
/// ensures common: IfOk result (λ common. common_shape longer.now shorter.now ≡ Some (Output.list common))
/// ensures memory: common_shape_fault longer.now shorter.now ≡ None →
///     NeedsNoMemory Output.NDIM (length longer.now) → IsOk result
/// ```
/// [How to read it](crate::contracts)
/// </details>
#[inline(always)]
fn common_of<Output: Lengths>(longer: &[usize], shorter: &[usize]) -> Result<Output, LayoutError> {
    // (one pass where the result needs no memory; else two, so that none is asked for in vain)
    if longer.len() > INLINE_AXES && !have_common_shape(longer, shorter) {
        return Err(from_kind(ErrorKind::IncompatibleShape).into());
    }
    let mut common = Output::zeros(longer.len())?;
    if join_shapes(longer, shorter, common.slice_mut()) {
        Ok(common)
    } else {
        Err(from_kind(ErrorKind::IncompatibleShape).into())
    }
}

/// The common shape of two shapes, by NumPy's rule: arrays of both can be broadcast to it.
///
/// Axes that only one of them has count as axes of length 1. The order of the shapes doesn't matter, and of several
/// shapes it doesn't matter which two are taken first. The size of the common shape isn't limited.
///
/// Takes time in proportion to the count of axes.
///
/// `[2,3]` and `[4,1,3]`: `[4,2,3]`. ndarray's `co_broadcast`.
///
/// # Errors
///
/// `IncompatibleShape` where two lengths of one axis are unequal and neither is 1; then out of
/// memory, never where `Output` fixes its count of axes or there are at most 4.
///
/// # Conditions
///
/// The caller ensures that `Output` has as many axes as the shape of the greater count. Otherwise this call or a later
/// one panics or returns unspecified values.
///
/// <details><summary>Contract (proved)</summary>
///
/// ```text
/// requires IsCount Output.NDIM (max (length (First.list shape1.now)) (length (Second.list shape2.now)))
/// ensures fault: shape_fault result ≡ common_shape_fault (First.list shape1.now) (Second.list shape2.now)
/// ensures common: IfOk result (λ common.
///     common_shape (First.list shape1.now) (Second.list shape2.now) ≡ Some (Output.list common))
/// ensures memory: common_shape_fault (First.list shape1.now) (Second.list shape2.now) ≡ None →
///     NeedsNoMemory Output.NDIM (max (length (First.list shape1.now)) (length (Second.list shape2.now)))
///     → IsOk result
/// ```
/// [How to read it](crate::contracts)
/// </details>
#[inline]
pub fn co_broadcast<First: Lengths, Second: Lengths, Output: Lengths>(
    shape1: &First,
    shape2: &Second,
) -> Result<Output, LayoutError> {
    let (lens, others) = (shape1.slice(), shape2.slice());
    if lens.len() < others.len() { common_of(others, lens) } else { common_of(lens, others) }
}
