// Made by `rust/erase` of `crates/ndarray_layout_tests/src/reshape_rows.rt`: edit that.
//! Rows of reshapes: strides along another shape, or the fault.

use crate::ndarray_layout_tests::calls::hold;

/// Shapes as they are read by rows.
const BY_ROWS: &str = "\
reshape_dim_C 1,2,3 6,3,1 2,3 => 3,1
reshape_dim_C 3,4,5 20,5,1 4,15 => 15,1
reshape_dim_C 4,4 4,1 2,2,1,4 => 8,4,1,1
reshape_dim_C 16 -4 2,2,4 => -32,-16,-4
reshape_dim_C 2,10 1,2 2,10 => 1,2
reshape_dim_C 3,4,5 4,1,1 12,5 => 1,1
reshape_dim_C 3,4,5,7 0,0,7,1 12,35 => 0,1
reshape_dim_C 3,4,5,7 0,0,7,1 28,15 => IncompatibleLayout
reshape_dim_C 1,10 1,1 1,5,1,1,2 => 1,2,2,2,1
reshape_dim_C 1,5,1,2,1 1,2,1,1,1 10 => 1
reshape_dim_C 4 3074457345618258602 2,2 => 6148914691236517204,3074457345618258602
reshape_dim_C 6,2 2,1 4,1,3 => 3,3,1
reshape_dim_C 4,4 8,1 2,2,2,2 => 16,8,2,1
reshape_dim_C 4,4 8,1 2,1,4,2 => IncompatibleLayout
reshape_dim_C 4,4 8,1 3,5 => IncompatibleLayout
reshape_dim_C 1,2,3 6,3,1 1 => IncompatibleShape
reshape_dim_C 1,10 10,1 1,10,1,1,1 => 10,1,1,1,1
reshape_dim_C 1,2,3 6,3,1 1,2,3 => 6,3,1
reshape_dim_C 1,2,3 6,3,1 6 => 1
reshape_dim_C 6 1 3,2 => 2,1
reshape_dim_C 4,4,4 16,4,1 16,4 => 4,1
reshape_dim_C 4,4 4,1 2,2,4,1 => 8,4,1,1
reshape_dim_C 4,4 4,1 2,2,4 => 8,4,1
reshape_dim_C 4,4 4,1 2,2,2,2 => 8,4,2,1
reshape_dim_C 3,4,4 16,4,1 3,16 => 16,1
reshape_dim_C 16 4 2,2,4 => 32,16,4
reshape_dim_C 3,4,5 20,5,1 12,5 => 5,1
reshape_dim_C 3,4,5,7 140,35,7,1 28,15 => 15,1
reshape_dim_C 1,5,1,2,1 1,1,1,5,1 10 => IncompatibleLayout
reshape_dim_C 1,1 7,-3 1 => 7";

/// Shapes as they are read by columns.
const BY_COLUMNS: &str = "\
reshape_dim_F 3,4,5 20,5,1 4,15 => IncompatibleLayout
reshape_dim_F 16 4 2,2,4 => 4,8,16
reshape_dim_F 3,4,5 1,3,1 12,5 => 1,1
reshape_dim_F 1,10 1,1 1,5,1,1,2 => 1,1,5,5,5
reshape_dim_F 1,10 10,1 1,10,1,1,1 => 10,1,1,1,1
reshape_dim_F 1,5,1,2,1 1,2,1,1,1 10 => IncompatibleLayout
reshape_dim_F 16 -4 2,2,4 => -4,-8,-16
reshape_dim_F 1,2,3 6,3,1 1 => IncompatibleShape
reshape_dim_F 2,10 1,2 2,10 => 1,2
reshape_dim_F 3,4,5 1,3,12 12,5 => 1,12
reshape_dim_F 1,5,1,2,1 1,1,1,5,1 10 => 1
reshape_dim_F 1,1 7,-3 1 => -3";

/// Shapes that are read alike in both orders.
const EITHER_WAY: &str = "\
reshape_dim_C 10 2 10 => 2
reshape_dim_F 10 2 10 => 2
reshape_dim_C 3,4,5 20,5,1 3,4,5 => 20,5,1
reshape_dim_F 3,4,5 20,5,1 3,4,5 => 20,5,1
reshape_dim_C 10 1 1,10,1,1,1 => 1,1,1,1,1
reshape_dim_F 10 1 1,10,1,1,1 => 1,1,1,1,1
reshape_dim_C 10,1,1,1,1 1,1,1,1,1 10 => 1
reshape_dim_F 10,1,1,1,1 1,1,1,1,1 10 => 1
reshape_dim_C - - 1,1 => 1,1
reshape_dim_F - - 1,1 => 1,1
reshape_dim_C 1 5 - => -
reshape_dim_F 1 5 - => -
reshape_dim_C 2 -9223372036854775807 1,2 => 1,-9223372036854775807
reshape_dim_F 2 -9223372036854775807 1,2 => 1,-9223372036854775807";

#[test]
fn r6_rows() {
    for table in [BY_ROWS, BY_COLUMNS, EITHER_WAY] {
        hold(table);
    }
}

/// Sizes of 2^62 and near the greatest `isize`, by rows: only a pass over the axes ends.
const LARGE_BY_ROWS: &str = "\
reshape_dim_C 2147483648,2147483648 4294967296,1 1073741824,2,2147483648 => 8589934592,4294967296,1
reshape_dim_C 2147483648,2147483648 4294967296,1 4611686018427387904 => IncompatibleLayout
reshape_dim_C 2147483648,2147483648 2147483648,1 1073741824,4294967296 => 4294967296,1
reshape_dim_C 4611686018427387904 -1 2,2305843009213693952 => -2305843009213693952,-1
reshape_dim_C 4611686018427387904 2 3,1537228672809129301 => IncompatibleShape
reshape_dim_C 2147483648,2147483648 -2147483648,-1 4611686018427387904 => -1
reshape_dim_C 9223372036854775807 -1 188232082384791343,1,49 => -49,-49,-1";

/// The same by columns.
const LARGE_BY_COLUMNS: &str = "\
reshape_dim_F 2147483648,2147483648 1,4294967296 2147483648,2,1073741824 => 1,4294967296,8589934592
reshape_dim_F 2147483648,2147483648 1,4294967296 4611686018427387904 => IncompatibleLayout
reshape_dim_F 2147483648,2147483648 1,2147483648 4294967296,1073741824 => 1,4294967296
reshape_dim_F 4611686018427387904 -1 2305843009213693952,2 => -1,-2305843009213693952
reshape_dim_F 4611686018427387904 2 3,1537228672809129301 => IncompatibleShape
reshape_dim_F 2147483648,2147483648 -1,-2147483648 4611686018427387904 => -1
reshape_dim_F 9223372036854775807 -1 188232082384791343,1,49 => -1,-188232082384791343,-188232082384791343";

#[test]
fn r11_rows() {
    hold(LARGE_BY_ROWS);
    hold(LARGE_BY_COLUMNS);
}
