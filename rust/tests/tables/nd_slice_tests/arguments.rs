// Made by `rust/erase` of `crates/nd_slice_tests/src/arguments.rt`: edit that.
//! Which slice arguments fit a shape, and which share an index of it, however the elements are kept.

use crate::test_tables::{AtType, Reading, at_type, name_of};
use ::ndarray_layout::nd_base::{Lengths, ShapeError};
use ::ndarray_layout::nd_slice::{Fit, SliceElems, check_slice, slices_intersect};

/// The name of a fault, or `fits`.
fn fit_name(answer: Result<(), ShapeError>) -> &'static str {
    match answer {
        Ok(()) => "fits",
        Err(fault) => name_of(Some(fault.kind())),
    }
}

/// Whether each length is at most the greatest `isize`.
///
/// <details><summary>Contract (proved)</summary>
///
/// ```text
/// ensures IsTrue result → All (λ len. len < 2 ^ 63) shape.now
/// ```
/// [How to read it](ndarray_layout::contracts)
/// </details>
fn are_short(shape: &[usize]) -> bool {
    shape.iter().all(|len| *len <= isize::MAX as usize)
}

/// Whether two arguments intersect on a shape, or the fault of one, as a word.
pub fn intersecting<D: Lengths, A: SliceElems, B: SliceElems>(
    dim: &D,
    first: &A,
    second: &B,
    fit: Fit,
) -> &'static str {
    if !are_short(dim.slice()) {
        return "too_long";
    }
    match slices_intersect(dim, first, second, fit) {
        Ok(true) => "intersect",
        Ok(false) => "apart",
        Err(fault) => name_of(Some(fault.kind())),
    }
}

/// What a row says of arguments.
#[derive(Clone, Copy)]
pub enum OfArguments {
    /// `TYPE SHAPE ARGUMENT => fits`, or the fault.
    Check(Fit),
    /// `TYPE SHAPE ARGUMENT ARGUMENT => intersect`, or `apart`, or the fault.
    Intersect(Fit),
}

/// A row at a dimension type.
struct OfRow<'a, 'b> {
    row: &'a mut Reading<'b>,
    asked: OfArguments,
}

impl AtType for OfRow<'_, '_> {
    fn at<D: Lengths>(self) -> Option<bool> {
        let OfRow { row, asked } = self;
        let dim: D = row.given.dim()?;
        let first = row.given.elems()?;
        match asked {
            OfArguments::Check(fit) => Some(row.answer.is(fit_name(check_slice(&dim, &first, fit)))),
            OfArguments::Intersect(fit) => {
                let second = row.given.elems()?;
                Some(row.answer.is(intersecting(&dim, &first, &second, fit)))
            }
        }
    }
}

/// Whether a row about arguments holds, at the type that it names.
pub fn arguments_hold(row: &mut Reading<'_>, asked: OfArguments) -> Option<bool> {
    let ndim = row.given.ndim()?;
    at_type(ndim, OfRow { row, asked })
}
