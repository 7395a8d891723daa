// Made by `rust/erase` of `crates/nd_slice/src/intersect.rt`: edit that.
//! Slice arguments that share an index of a shape.

mod equation;
mod euclid;
mod multiplier;
mod sequence;

use crate::nd_base::{Lengths, ShapeError};
use crate::nd_slice::axis_elems::AxisElems;
use crate::nd_slice::elem::SliceInfoElem;
use crate::nd_slice::elems::SliceElems;
use crate::nd_slice::fit::Fit;
use crate::nd_slice::picks::resolve_elem;
use crate::nd_slice::ranges_apart::have_ranges_apart;
use crate::nd_slice::slice_errors::check_slice;
pub use equation::solve_linear_diophantine_eq;
pub use euclid::extended_gcd;
pub use sequence::arith_seq_intersect;

/// Whether two elements that fit an axis of `len` coordinates share one of it.
///
/// # Conditions
///
/// The caller ensures that `len` is below 2^63. Otherwise this call or a later one panics or returns unspecified
/// values.
///
/// <details><summary>Contract (proved)</summary>
///
/// ```text
/// requires len_fits: len < 2 ^ 63
/// requires first_fits: elem_fault fit len first ≡ None
/// requires second_fits: elem_fault fit len second ≡ None
/// ensures IsTrue result ↔ PicksIntersect (elem_picks fit len first) (elem_picks fit len second)
/// ```
/// [How to read it](crate::contracts)
/// </details>
#[inline]
fn elems_share(len: usize, first: SliceInfoElem, second: SliceInfoElem, fit: Fit) -> bool {
    let picks = resolve_elem(len, first, fit).unwrap();
    picks.intersects(resolve_elem(len, second, fit).unwrap())
}

/// Whether two slice arguments that fit a shape share a coordinate of each axis, one axis after another.
///
/// <details><summary>Contract (proved)</summary>
///
/// ```text
/// requires lens_fit: All (λ len. len < 2 ^ 63) shape.now
/// requires first_fits: argument_fault fit shape.now first.now ≡ None
/// requires second_fits: argument_fault fit shape.now second.now ≡ None
/// ensures IsTrue result ↔ Intersect fit shape.now first.now second.now
/// ```
/// [How to read it](crate::contracts)
/// </details>
#[inline]
fn elems_share_all(shape: &[usize], first: &[SliceInfoElem], second: &[SliceInfoElem], fit: Fit) -> bool {
    let mut others = AxisElems::new(shape, second);
    for (len, elem) in AxisElems::new(shape, first) {
        let Some((_, other)) = others.next() else {
            return true;
        };
        if !elems_share(len, elem, other, fit) {
            return false;
        }
    }
    true
}

/// Whether two slice arguments that fit a shape share an index of it: what `slices_intersect` returns, of lists that
/// were checked before. Where neither has new axes the ranges of all axes are compared before any equation of steps is
/// solved, that of the last axis first. The project's own.
///
/// # Conditions
///
/// The caller ensures that both fit, and that each length is below 2^63. Otherwise this call or a later one panics or
/// returns unspecified values.
///
/// <details><summary>Contract (proved)</summary>
///
/// ```text
/// requires lens_fit: All (λ len. len < 2 ^ 63) shape.now
/// requires first_fits: argument_fault fit shape.now first.now ≡ None
/// requires second_fits: argument_fault fit shape.now second.now ≡ None
/// ensures IsTrue result ↔ Intersect fit shape.now first.now second.now
/// ```
/// [How to read it](crate::contracts)
/// </details>
#[must_use]
#[inline(always)]
pub fn elems_intersect(shape: &[usize], first: &[SliceInfoElem], second: &[SliceInfoElem], fit: Fit) -> bool {
    !have_ranges_apart(shape, first, second, fit) && elems_share_all(shape, first, second, fit)
}

/// Whether two slice arguments on a shape share an index: one whose coordinate on every axis is
/// among the picks of both.
///
/// New axes are for no axis of the shape. Without axes the result is true; where either argument picks nothing of an
/// axis it is false.
///
/// Takes time in proportion to the count of axes, whatever their lengths.
///
/// `..,..;9` and `..,3..;6` on `[4,10]`: true, by coordinate 9 of the last axis. ndarray's
/// `slices_intersect`.
///
/// # Errors
///
/// Those of `check_slice` for the first argument, then for the second.
///
/// # Conditions
///
/// The caller ensures that each length is below 2^63. Otherwise this call or a later one panics or returns unspecified
/// values.
///
/// <details><summary>Contract (proved)</summary>
///
/// ```text
/// requires All (λ len. len < 2 ^ 63) (D.list dim.now)
/// ensures fault: result_err result ≡ option_or
///     (argument_fault fit (D.list dim.now) (A.list first.now))
///     (argument_fault fit (D.list dim.now) (B.list second.now))
/// ensures intersect: IfOk result (λ intersect. IsTrue intersect
///     ↔ Intersect fit (D.list dim.now) (A.list first.now) (B.list second.now))
/// ```
/// [How to read it](crate::contracts)
/// </details>
#[inline]
pub fn slices_intersect<D: Lengths, A: SliceElems, B: SliceElems>(
    dim: &D,
    first: &A,
    second: &B,
    fit: Fit,
) -> Result<bool, ShapeError> {
    check_slice(dim, first, fit)?;
    check_slice(dim, second, fit)?;
    Ok(elems_share_all(dim.slice(), first.elems(), second.elems(), fit))
}
