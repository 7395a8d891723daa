//! Views from a start that is given. The answers are those of a small model in Python, which lists the place of every index and
//! looks whether each lies in the data.

use super::calls::answer;
use crate::table::assert_rows;

#[test]
fn from_a_start() {
    let table = "\
from_parts Ix1 4 4 5 owned 3 -1 => 3 -1 4 4,3,2
from_parts Ix1 2 4 5 owned 3 -1 => 3 -1 2 2,1,0
from_parts Ix1 1 4 5 owned 3 -1 => OutOfBounds
from_parts Ix1 5 4 5 read 3 -1 => OutOfBounds
from_parts Ix1 2 1 5 owned 3 1 => 3 1 2 2,3,4
from_parts Ix1 3 1 5 owned 3 1 => OutOfBounds
from_parts Ix2 0 8 6 owned 2,3 3,1 => 2,3 3,1 0 0,1,2,3,4,5
from_parts Ix2 1 8 6 owned 2,3 3,1 => OutOfBounds
from_parts Ix2 3 8 6 owned 2,3 -3,1 => 2,3 -3,1 3 3,4,5,0,1,2
from_parts Ix2 2 8 6 owned 2,3 -3,1 => OutOfBounds
from_parts Ix2 5 8 6 owned 2,3 -3,-1 => 2,3 -3,-1 5 5,4,3,2,1,0
from_parts Ix2 4 8 6 owned 2,3 -3,-1 => OutOfBounds
from_parts Ix3 7 1 12 owned 2,2,2 4,-2,1 => OutOfBounds
from_parts Ix3 1 1 12 owned 2,2,2 4,-2,1 => OutOfBounds
from_parts Ix2 2 1 10 read 3,2 2,3 => 3,2 2,3 2 2,5,4,7,6,9
from_parts Ix2 2 1 10 owned 3,2 2,3 => Unsupported
from_parts Ix2 2 1 9 owned 3,2 2,3 => OutOfBounds
from_parts Ix2 3 1 10 read 3,2 2,3 => OutOfBounds
from_parts Ix1 4 1 5 read 4 0 => 4 0 4 4,4,4,4
from_parts Ix1 4 1 5 owned 4 0 => Unsupported";
    assert_rows(table, answer);
}

#[test]
fn without_axes_or_index() {
    let table = "\
from_parts Ix0 0 1 1 owned - - => - - 0 0
from_parts Ix0 4 1 5 owned - - => - - 4 4
from_parts Ix0 5 1 5 read - - => OutOfBounds
from_parts Ix0 0 1 0 read - - => OutOfBounds
from_parts Ix0 18446744073709551615 1 5 owned - - => OutOfBounds
from_parts Ix1 0 1 0 owned 0 1 => 0 1 0 -
from_parts Ix1 5 1 5 owned 0 1 => 0 1 5 -
from_parts Ix1 6 1 5 owned 0 1 => OutOfBounds
from_parts Ix1 18446744073709551615 1 5 read 0 1 => OutOfBounds
from_parts Ix2 0 1 5 owned 0,3 1,1 => 0,3 1,1 0 -
from_parts Ix2 3 1 5 owned 0,3 1,1 => 0,3 1,1 3 -
from_parts Ix2 4 1 5 owned 0,3 1,1 => OutOfBounds
from_parts Ix2 1 1 5 owned 0,3 1,-1 => OutOfBounds
from_parts Ix2 2 1 5 read 0,3 1,-1 => 0,3 1,-1 2 -
from_parts Ix2 5 1 5 read 0,3 1,-1 => 0,3 1,-1 5 -
from_parts Ix2 6 1 5 read 0,3 1,-1 => OutOfBounds
from_parts Ix2 0 1 5 owned 2,0 -9223372036854775808,1 => Overflow
from_parts Ix1 9223372036854775807 1 5 read 0 -9223372036854775808 => OutOfBounds";
    assert_rows(table, answer);
}

#[test]
fn counts_that_differ() {
    let table = "\
from_parts IxDyn 0 1 6 owned 2,3 1 => IncompatibleLayout
from_parts IxDyn 9 1 6 owned 2,3 1 => IncompatibleLayout
from_parts IxDyn 0 1 6 read - 1 => IncompatibleLayout
from_parts IxDyn 0 1 6 read 6 - => IncompatibleLayout
from_parts IxDyn 18446744073709551615 0 0 read 9223372036854775808,2 -9223372036854775808 => IncompatibleLayout";
    assert_rows(table, answer);
}

#[test]
fn numbers_past_the_limits() {
    let table = "\
from_parts Ix2 0 0 9 read 4611686018427387904,2 0,0 => Overflow
from_parts Ix2 7 0 9 read 4611686018427387904,2 0,0 => Overflow
from_parts Ix3 0 0 9 read 4611686018427387904,2,0 0,0,1 => Overflow
from_parts Ix1 0 1 9 read 2 -9223372036854775808 => Overflow
from_parts Ix1 18446744073709551615 1 9 read 2 -9223372036854775808 => Overflow
from_parts Ix1 0 1 9 read 1 -9223372036854775808 => 1 -9223372036854775808 0 0
from_parts Ix1 8 1 9 read 1 -9223372036854775808 => 1 -9223372036854775808 8 8
from_parts Ix1 9 1 9 read 1 -9223372036854775808 => OutOfBounds
from_parts Ix1 0 2 9 read 4611686018427387905 1 => Overflow
from_parts Ix1 0 1 9 read 4611686018427387905 1 => OutOfBounds
from_parts Ix1 0 1 9 read 9223372036854775808 0 => Overflow
from_parts Ix1 9223372036854775807 1 9 read 1 1 => OutOfBounds
from_parts Ix1 9223372036854775808 1 9 read 1 1 => OutOfBounds
from_parts Ix1 18446744073709551615 1 9 read 1 1 => OutOfBounds
from_parts Ix1 18446744073709551615 1 9 read 3 1 => OutOfBounds
from_parts Ix1 18446744073709551615 1 9 read 3 -1 => OutOfBounds
from_parts Ix1 18446744073709551615 1 18446744073709551615 read 3 -1 => OutOfBounds
from_parts Ix1 9223372036854775807 0 18446744073709551615 owned 1 1 => 1 1 9223372036854775807 9223372036854775807
from_parts Ix1 9223372036854775808 0 18446744073709551615 owned 1 1 => OutOfBounds
from_parts Ix1 9223372036854775807 0 18446744073709551615 read 2 -1 => 2 -1 9223372036854775807 9223372036854775807,9223372036854775806
from_parts Ix1 9223372036854775807 0 18446744073709551615 read 2 1 => OutOfBounds
from_parts Ix1 9223372036854775806 0 18446744073709551615 read 2 1 => 2 1 9223372036854775806 9223372036854775806,9223372036854775807
from_parts Ix1 9223372036854775806 0 9223372036854775807 read 1 1 => 1 1 9223372036854775806 9223372036854775806
from_parts Ix1 9223372036854775807 0 9223372036854775807 read 1 1 => OutOfBounds
from_parts Ix1 9223372036854775807 0 9223372036854775807 read 0 1 => 0 1 9223372036854775807 -
from_parts Ix1 9223372036854775808 0 18446744073709551615 read 0 1 => OutOfBounds
from_parts Ix1 9223372036854775807 0 18446744073709551615 read 2 -9223372036854775807 => 2 -9223372036854775807 9223372036854775807 9223372036854775807,0
from_parts Ix1 9223372036854775806 0 18446744073709551615 read 2 -9223372036854775807 => OutOfBounds";
    assert_rows(table, answer);
}

#[test]
fn as_new_at_the_lowest_start() {
    let table = "\
from_parts Ix2 0 1 8 read 3,2 2,3 => 3,2 2,3 0 0,3,2,5,4,7
from_parts Ix2 0 1 8 owned 3,2 2,3 => Unsupported
from_parts Ix2 0 1 2 owned 1,2 -9223372036854775808,1 => 1,2 -9223372036854775808,1 0 0,1
from_parts Ix3 2 1 8 owned 2,2,2 4,-2,1 => 2,2,2 4,-2,1 2 2,3,0,1,6,7,4,5
from_parts Ix3 0 1 8 owned 2,2,2 3,2,1 => Unsupported
from_parts Ix2 5 1 6 owned 2,3 -3,-1 => 2,3 -3,-1 5 5,4,3,2,1,0
from_parts Ix0 0 1 1 owned - - => - - 0 0
from_parts Ix0 0 1 0 owned - - => OutOfBounds";
    assert_rows(table, answer);
}

#[test]
fn past_four_axes() {
    let table = "\
from_parts IxDyn 4 1 9 owned 1,2,1,2,1 9,-2,9,1,9 => 1,2,1,2,1 9,-2,9,1,9 4 4,5,2,3
from_parts IxDyn 1 1 9 owned 1,2,1,2,1 9,-2,9,1,9 => OutOfBounds
from_parts IxDyn 12 2 40 owned 2,1,2,1,2,1,2 -8,40,4,40,2,40,1 => 2,1,2,1,2,1,2 -8,40,4,40,2,40,1 12 12,13,14,15,16,17,18,19,4,5,6,7,8,9,10,11
from_parts IxDyn 31 2 40 owned 2,1,2,1,2,1,2 8,40,4,40,2,40,1 => OutOfBounds
from_parts IxDyn 33 2 40 owned 2,1,2,1,2,1,2 8,40,4,40,2,40,1 => OutOfBounds
from_parts IxDyn 0 1 9 owned 2,2,2,2,2 1,1,1,1,1 => Unsupported";
    assert_rows(table, answer);
}
