// Made by `rust/erase` of `crates/nd_slice_tests/src/rows.rt`: edit that.
//! Rows of the calls.

use crate::nd_slice_tests::calls::{Calls, hold};
use crate::test_tables::row_holds;

#[test]
fn r1_rows() {
    let table = "\
do_slice 4 1 3..1 => 0 0 0
do_slice 4 1 5..2 => OutOfBounds 4 1
do_slice 4 1 0..0;0 => Unsupported 4 1
do_slice 4 1 9..0;0 => OutOfBounds 4 1
do_slice 4 1 1..;-2 => 3 2 -2";
    hold(table);
}

/// The first fault of an argument, and of two that of the first one.
const FAULTS: &str = "\
check_slice Ix2 4,5 .. => IncompatibleShape
check_slice Ix2 4,5 9..,..;0 => OutOfBounds
check_slice Ix2 4,5 ..;0,9.. => Unsupported
check_slice IxDyn 2,3,1,2,4 -1,..,0,NewAxis,2..;-1,-4 => fits
slices_intersect Ix2 4,5 9..,.. ..;0,.. => OutOfBounds
slices_intersect Ix2 4,5 ..1,..;0 2..,9.. => Unsupported";

const LEAST_AND_GREATEST: &str = "\
slice_min_max 0 ..;3 / 10 -1..-1;-3 / 10 1..1;3 / 10 -1..-1;3 / 10 1..1;-3 => none
slice_min_max 10 1..8;3 / 10 1..8;-3 / 10 1..9;3 / 10 -9..8;3 / 10 -9..9;3 / 10 1..-2;3 / 10 1..-1;3 => 1 7
slice_min_max 11 1..;3 / 11 -10..;3 => 1 10
slice_min_max 10 2..8;-3 / 10 -8..8;-3 / 10 2..-2;-3 / 10 -8..-2;-3 => 4 7
slice_min_max 9 2..;-3 / 9 -7..;-3 => 2 8
slice_min_max 9 3..;-3 / 9 -6..;-3 => 5 8
slice_min_max 10 -9..-2;3 / 10 -9..-1;3 / 10 1..;3 / 10 -9..;3 / 10 -9..8;-3 / 10 1..-2;-3 / 10 -9..-2;-3 => 1 7";

/// Arguments with new axes, steps and indices, without axes and without coordinates.
const INTERSECTING: &str = "\
slices_intersect Ix2 4,5 NewAxis,..,NewAxis,.. ..,NewAxis,..,NewAxis / Ix2 4,5 ..;2,.. ..;3,NewAxis,.. => intersect
slices_intersect Ix2 4,5 ..,..;2 ..,1..;3,NewAxis / Ix2 4,5 NewAxis,0,.. 0,.. / Ix2 4,10 ..,..;9 ..,3..;6 => intersect
slices_intersect Ix2 4,5 ..;2,.. NewAxis,1..;2,.. / Ix2 4,5 ..;2,.. 1..;3,.. / Ix2 4,5 ..,..;9 ..,3..;6 => apart
slices_intersect Ix2 4,5 ..;2,NewAxis,.. 1..;3,.. / Ix2 4,5 ..,..;9 ..,3..;6,NewAxis / Ix1 0 .. .. => apart
slices_intersect Ix1 5 ..;-9223372036854775808 4 / Ix0 - - - => intersect
slices_intersect Ix1 5 5 5 => OutOfBounds";

#[test]
fn r4_rows() {
    for table in [FAULTS, LEAST_AND_GREATEST, INTERSECTING] {
        hold(table);
    }
}

/// Numbers under slices that intersect.
const NUMBERS: &str = "\
extended_gcd 0 0 => 0 0 0
extended_gcd 0 5 => 5 0 1
extended_gcd 5 0 => 5 1 0
extended_gcd 0 -5 => 5 0 -1
extended_gcd -5 0 => 5 -1 0
solve_linear_diophantine_eq -6 9 3 => 1 3
solve_linear_diophantine_eq -9 6 3 => 1 2
solve_linear_diophantine_eq 4 6 3 => none
solve_linear_diophantine_eq -9223372036854775808 9223372036854775807 -1 => 1 9223372036854775807
arith_seq_intersect 0 9 9 3 9 6 => true
arith_seq_intersect 0 0 9 3 3 6 => false
arith_seq_intersect -9223372036854775808 9223372036854775807 1 \
9223372036854775807 9223372036854775807 -9223372036854775808 => true";

/// Steps of every size, on axes of every length: a body that looks at each coordinate doesn't end.
const STEPS: &str = "\
slices_intersect Ix1 9 ..;4 2..;6 / Ix1 9223372036854775807 ..;-9223372036854775808 ..;2 => intersect
slices_intersect Ix1 8 ..;4 2..;6 / Ix1 9223372036854775807 ..;-9223372036854775808 1..;2 => apart
slices_intersect Ix1 9223372036854775807 ..;6 3..;4 => apart
slices_intersect Ix1 9223372036854775807 ..;4611686018427387904 1..;4611686018427387903 => intersect
slices_intersect Ix1 9223372036854775807 ..;4611686018427387904 2..;4611686018427387903 => apart
slices_intersect IxDyn 9223372036854775807,9223372036854775807 9223372036854775806,..;6 -1,3..;3 => intersect";

#[test]
fn r10_rows() {
    hold(NUMBERS);
    hold(STEPS);
}

#[test]
fn r12_rows() {
    let table = "\
do_slice 9223372036854775807 1 ..;-9223372036854775808 => 9223372036854775806 1 0
do_slice 9223372036854775807 1 ..;9223372036854775806 => 0 2 9223372036854775806
do_slice 9223372036854775807 1 -9223372036854775808.. => OutOfBounds 9223372036854775807 1
do_slice 1 -9223372036854775808 ..;-1 => 0 1 0
slice_min_max 18446744073709551615 ..;-9223372036854775808 => 9223372036854775806 18446744073709551614
check_slice Ix1 18446744073709551615 -9223372036854775808 => fits
check_slice_clamped Ix1 9223372036854775807 -9223372036854775808 => OutOfBounds";
    hold(table);
}

/// Bounds that are moved to the ends of their axis, and indices, which are not.
const CLAMPED: &str = "\
do_slice_clamped 4 1 3..9 => 3 1 0
do_slice_clamped 4 1 -9..9;-2 => 3 2 -2
do_slice_clamped 4 1 5..2 => 0 0 0
do_slice_clamped 4 1 9..;0 => Unsupported 4 1
slice_min_max_clamped 10 -20..8;3 => 0 6
check_slice_clamped Ix2 4,5 9..,-9..;2 => fits
check_slice_clamped Ix2 4,5 9..,5 => OutOfBounds
check_slice_clamped Ix2 4,5 9..;0,9 => Unsupported
slices_intersect_clamped Ix1 5 -9..3 2..99 => intersect
slices_intersect_clamped Ix1 5 9.. .. => apart
slices_intersect_clamped Ix1 5 9 .. => OutOfBounds";

#[test]
fn r14_rows() {
    hold(CLAMPED);
}

// A line that is no row of a known call, or that can't be read to its end, holds nowhere.
#[test]
fn lines_that_are_no_rows() {
    let lines = [
        "",
        "check_slice Ix1 4 ..",
        "check_slice Ix1 4 .. / Ix1 4 5.. => fits",
        "check_slise Ix1 4 .. => fits",
        "check_slice Ix7 4 .. => fits",
        "check_slice Ix2 4 .. => fits",
        "check_slice Ix1 4x .. => fits",
        "check_slice Ix1 4 1.. ..",
        "check_slice Ix1 4 => fits",
        "check_slice Ix1 4 1..;x => fits",
        "do_slice 4 1 .. => 0 4",
        "do_slice 4 1 2 => 0 4 1",
        "slices_intersect Ix1 9223372036854775808 .. .. => intersect",
    ];
    for line in lines {
        assert!(!row_holds(line, &Calls), "{line}");
    }
    assert!(row_holds("check_slice Ix1 4 .. / Ix1 4 1.. => fits", &Calls));
}
