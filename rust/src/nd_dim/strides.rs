// Made by `rust/erase` of `crates/nd_dim/src/strides.rt`: edit that.
//! The strides that a shape has by itself, and strides that place the same indices alike.

use crate::memory::AllocError;
use crate::nd_base::Lengths;
use crate::nd_dim::sequence::{Forward, Reverse, Sequence, SequenceMut, item};

/// Whether some number of a sequence is 0.
///
/// <details><summary>Contract (proved)</summary>
///
/// ```text
/// ensures result ≡ is_empty (S.items lens.now)
/// ```
/// [How to read it](crate::contracts)
/// </details>
#[inline(always)]
fn has_zero<S: Sequence>(lens: &S) -> bool {
    for k in 0..lens.len() {
        if item(lens, k) == 0 {
            return true;
        }
    }
    false
}

/// Writes for each axis the product of the lengths before it, times `first`.
///
/// <details><summary>Contract (proved)</summary>
///
/// ```text
/// requires same_count: length (S.items lens.now) ≡ length (O.items out.old)
/// requires fits: (k : ℕ) → k ≤ length (S.items lens.now) → first * size_until (S.items lens.now) k < 2 ^ 64
/// ensures written: (k : ℕ) → k < length (S.items lens.now) →
///     slice_index (O.items out.new) k ≡ first * size_until (S.items lens.now) k
/// ensures same_count: length (O.items out.new) ≡ length (S.items lens.now)
/// ensures target: O.same_target out.old out.new
/// ```
/// [How to read it](crate::contracts)
/// </details>
#[inline(always)]
fn write_products<S: Sequence, O: SequenceMut>(lens: &S, first: usize, out: &mut O) {
    let mut product = first;
    for k in 0..lens.len() {
        out.set(k, product);
        product *= item(lens, k);
    }
}

/// Writes the strides that a shape has by itself, where both sequences begin with the axis that
/// moves fastest: each the product of the lengths before it, and all 0 where some length is 0.
///
/// <details><summary>Contract (proved)</summary>
///
/// ```text
/// requires same_count: length (S.items lens.now) ≡ length (O.items strides.old)
/// requires size_fits: size (S.items lens.now) < 2 ^ 64
/// ensures strides: O.items strides.new ≡ fortran_strides_of (S.items lens.now)
/// ensures target: O.same_target strides.old strides.new
/// ```
/// [How to read it](crate::contracts)
/// </details>
#[inline(always)]
fn write_strides<S: Sequence, O: SequenceMut>(lens: &S, strides: &mut O) {
    // (two calls, so that LLVM knows each time which number comes first)
    if has_zero(lens) {
        write_products(lens, 0, strides);
    } else {
        write_products(lens, 1, strides);
    }
}

/// The strides of a shape in row-major order, in elements: each is the product of the later
/// lengths. All are 0 where a length is 0.
///
/// Takes time in proportion to the count of axes.
///
/// `[2,3,4]`: `[12,4,1]`. What `Dimension::default_strides` returns, for a type that is known by
/// its list alone.
///
/// # Errors
///
/// Out of memory; never where the type fixes the count or there are at most 4 axes.
///
/// # Conditions
///
/// The caller ensures that the size is below 2^64 (`Dimension::size_checked`). Otherwise this call or a later one
/// panics or returns unspecified values.
///
/// <details><summary>Contract (proved)</summary>
///
/// ```text
/// requires size (D.list dim.now) < 2 ^ 64
/// ensures list: IfOk result (λ strides. D.list strides ≡ default_strides_of (D.list dim.now))
/// ensures memory: NeedsNoMemory D.NDIM (length (D.list dim.now)) → IsOk result
/// ```
/// [How to read it](crate::contracts)
/// </details>
#[inline]
pub fn default_strides<D: Lengths>(dim: &D) -> Result<D, AllocError> {
    // (a copy to write over is made faster than as many zeros)
    let mut strides = dim.duplicate()?;
    let items = strides.slice_mut();
    write_strides(&Reverse(dim.slice()), &mut Reverse(items));
    Ok(strides)
}

/// The strides of a shape in column-major order, in elements: each is the product of the earlier
/// lengths. All are 0 where a length is 0.
///
/// Takes time in proportion to the count of axes.
///
/// `[2,3,4]`: `[1,2,6]`. What `Dimension::fortran_strides` returns, for a type that is known by its
/// list alone.
///
/// # Errors
///
/// Out of memory; never where the type fixes the count or there are at most 4 axes.
///
/// # Conditions
///
/// The caller ensures that the size is below 2^64 (`Dimension::size_checked`). Otherwise this call or a later one
/// panics or returns unspecified values.
///
/// <details><summary>Contract (proved)</summary>
///
/// ```text
/// requires size (D.list dim.now) < 2 ^ 64
/// ensures list: IfOk result (λ strides. D.list strides ≡ fortran_strides_of (D.list dim.now))
/// ensures memory: NeedsNoMemory D.NDIM (length (D.list dim.now)) → IsOk result
/// ```
/// [How to read it](crate::contracts)
/// </details>
#[inline]
pub fn fortran_strides<D: Lengths>(dim: &D) -> Result<D, AllocError> {
    // (a copy to write over is made faster than as many zeros)
    let mut strides = dim.duplicate()?;
    let items = strides.slice_mut();
    write_strides(&Forward(dim.slice()), &mut Forward(items));
    Ok(strides)
}

/// Whether both lists of strides have one for each axis, and agree on each axis of length greater
/// than 1. ndarray's `strides_equivalent`.
///
/// <details><summary>Contract (proved)</summary>
///
/// ```text
/// ensures IsTrue result ↔ AreEquivalent lens.now strides.now others.now
/// ```
/// [How to read it](crate::contracts)
/// </details>
#[inline]
pub(crate) fn are_equivalent(lens: &[usize], strides: &[usize], others: &[usize]) -> bool {
    strides.len() == lens.len()
        && others.len() == lens.len()
        && lens.iter().zip(strides.iter().zip(others)).all(|(len, (stride, other))| *len <= 1 || stride == other)
}
