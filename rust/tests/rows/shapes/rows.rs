//! Rows of the calls of a dimension and of a layout.

use super::calls::answer;
use crate::table::assert_rows;

/// What the calls of a dimension return; and what is made of a value of each type.
const OF_DIMENSIONS: &str = "\
kept - => -
kept 5 => 5
kept 2,3 => 2,3
kept 3,4,5 => 3,4,5
kept 2,3,4,5 => 2,3,4,5
kept 2,3,4,5,6 => 2,3,4,5,6
kept 1,2,3,4,5,6 => 1,2,3,4,5,6
kept 2,3,4,5,6,7,8 => 2,3,4,5,6,7,8
default_in - => -
default_in 2,3 => 0,0
default_in 1,2,3,4,5,6 => 0,0,0,0,0,0
size_checked 1099511627776,1099511627776 => None
from_dimension 3,4 3,4,5 => None
from_dimension 3,4 5,6 => 5,6
incompatible_shapes 2,3,4 2,3 => IncompatibleShape
last_elem - => 0
last_elem 3,4 => 4
set_last_elem 3,4 7 => 3,7
strides_equivalent 1,3 9,1 7,1 => true
strides_equivalent 2,3 1,3 3,1 => false";

/// At each type an axis less; and the first index and the next ones.
const OF_EACH_TYPE: &str = "\
insert_axis - 0 => 1
insert_axis 2,3,4 1 => 2,1,3,4
insert_axis 2,3,4,5,6,7,8 3 => 2,3,4,1,5,6,7,8
insert_axis 1,2,3,4,5,6 6 => 1,2,3,4,5,6,1
remove_axis 5 0 => -
remove_axis 2,3,4 0 => 3,4
remove_axis 2,3 1 => 2
remove_axis 2,3,4,5 3 => 2,3,4
remove_axis 2,3,4,5,6 2 => 2,3,5,6
remove_axis 1,2,3,4,5,6 5 => 1,2,3,4,5
remove_axis 2,3,4,5,6,7,8 0 => 3,4,5,6,7,8
first_index - => -
first_index 2,3,4,5,6 => 0,0,0,0,0
first_index 2,0,3 => None
next_for 2,3 0,2 => 1,0
next_for 2,3 1,2 / - - => None
next_for 18446744073709551615,1 18446744073709551613,0 => 18446744073709551614,0
next_for_f 2,3 1,0 => 0,1
next_for_f 2,3 1,2 => None";

#[test]
fn calls_of_a_dimension() {
    assert_rows(OF_DIMENSIONS, answer);
    assert_rows(OF_EACH_TYPE, answer);
}

/// Shapes by their own strides, and layouts whose indices lie one after another.
const OF_LAYOUTS: &str = "\
can_index_slice_not_custom 2,3 6 / 2,3,1,2,2 24 => none
can_index_slice_not_custom 2,3 5 => OutOfBounds
can_index_slice_not_custom 9223372036854775808 18446744073709551615 => Overflow
strides_non_negative 2,1 => none
strides_non_negative 3,-1 => Unsupported
is_layout 5,5 5,1 / 4,5 5,1 => true false
is_layout 5,5 1,5 / 5,4 1,5 => false true
is_layout 1,5 0,1 => true true
is_layout 5,1 5,0 / 5,4 5,1 / 3,5 10,1 => false false
is_layout 4611686018427387903,2 2,1 => true false";

#[test]
fn calls_of_a_layout() {
    assert_rows(OF_LAYOUTS, answer);
}

/// How many indices are left when none, one and two of them are gone.
const FOLDS: &str = "\
fold - => 1 0 0
fold 2 => 2 1 0
fold 2,3 => 6 5 4
fold 2,0,3 => 0 0 0
fold 2,3,4 => 24 23 22
fold 2,3,4,2 => 48 47 46
fold_f - => 1 0 0
fold_f 2,3 => 6 5 4
fold_f 2,0,3 => 0 0 0
fold_f 2,3,4,2 => 48 47 46";

#[test]
fn folds_over_copies() {
    assert_rows(FOLDS, answer);
}
