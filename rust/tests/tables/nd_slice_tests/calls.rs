// Made by `rust/erase` of `crates/nd_slice_tests/src/calls.rt`: edit that.
//! The calls of rows, by their names.

use crate::nd_slice_tests::arguments::{OfArguments, arguments_hold};
use crate::nd_slice_tests::axis::{ends_hold, slice_holds};
use crate::nd_slice_tests::equations::{divisor_holds, sequences_hold, solution_holds};
use crate::test_tables::{Asked, Row, first_failing, meaning};
use ::ndarray_layout::nd_slice::Fit;
use Fit::{Clamp, Strict};

/// A call, and what becomes there of bounds that lie outside their axis.
#[derive(Clone, Copy)]
enum Call {
    /// `LEN STRIDE SLICE => OFFSET LEN STRIDE`: what the slice of an axis answers, and the axis afterwards.
    DoSlice(Fit),
    /// `LEN SLICE => LEAST GREATEST`, or `none`.
    SliceMinMax(Fit),
    /// `TYPE SHAPE ..`: of arguments.
    Arguments(OfArguments),
    /// `A B => GCD X Y`.
    ExtendedGcd,
    /// `A B C => LEAST APART`, or `none`.
    Solve,
    /// `FIRST LAST STEP FIRST LAST STEP => true`, or `false`.
    ArithSeqIntersect,
}

static CALLS: [(&str, Call); 11] = [
    ("do_slice", Call::DoSlice(Strict)),
    ("do_slice_clamped", Call::DoSlice(Clamp)),
    ("slice_min_max", Call::SliceMinMax(Strict)),
    ("slice_min_max_clamped", Call::SliceMinMax(Clamp)),
    ("check_slice", Call::Arguments(OfArguments::Check(Strict))),
    ("check_slice_clamped", Call::Arguments(OfArguments::Check(Clamp))),
    ("slices_intersect", Call::Arguments(OfArguments::Intersect(Strict))),
    ("slices_intersect_clamped", Call::Arguments(OfArguments::Intersect(Clamp))),
    ("extended_gcd", Call::ExtendedGcd),
    ("solve_linear_diophantine_eq", Call::Solve),
    ("arith_seq_intersect", Call::ArithSeqIntersect),
];

/// Rows of calls.
pub struct Calls;

impl Asked for Calls {
    fn holds(&self, row: &Row<'_>) -> Option<bool> {
        let reading = &mut row.reading();
        match meaning(&CALLS, row.call)? {
            Call::DoSlice(fit) => slice_holds(reading, fit),
            Call::SliceMinMax(fit) => ends_hold(reading, fit),
            Call::Arguments(asked) => arguments_hold(reading, asked),
            Call::ExtendedGcd => divisor_holds(reading),
            Call::Solve => solution_holds(reading),
            Call::ArithSeqIntersect => sequences_hold(reading),
        }
    }
}

/// All rows of a table hold, and there is one at least. The first that doesn't is named.
pub fn hold(table: &str) {
    if let Some(line) = first_failing(table, &Calls) {
        panic!("{line}");
    }
}
