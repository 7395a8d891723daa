//! A sample of what ndarray 0.17.2 answers of a dimension, of its strides and of a layout.
//!
//! Lists of no axes up to six, chosen by hand: lengths of 0 and 1 among others, products at the ends of 64 bits,
//! strides back, of equal magnitude or 0. That crate's own dimension files were built by themselves, with overflow
//! checks and debug assertions, and each row was asked of them at `IxDyn`, with strides read and written as signed
//! numbers. Left out is what this layer answers otherwise on purpose: strides of `isize::MIN` where the crate takes
//! their magnitude, axes of length at most 1 with the least stride, and sizes that overflow before a length of 0.

use super::calls::answer;
use crate::table::assert_rows;

const ANSWERS: &str = "\
size_checked 0 / 5,0,7,1 / 4,3,2,1,0 => 0
size_checked 1,1,1,1,1,1 => 1
size_checked 2,3,5,7,11,13 => 30030
size_checked 4294967296,2147483648,2 / 3,6148914691236517206 / 9223372036854775808,2 / 65536,65536,65536,65536 => None
size_checked 3,6148914691236517205 / 18446744073709551615 / 4294967295,4294967297 => 18446744073709551615
size_checked 65536,65536,65536,65535 => 18446462598732840960
size_checked 4294967296,4294967295 => 18446744069414584320
size_checked 1,18446744073709551615,1,1,1 => 18446744073709551615
own_strides 7 / 1 => 1 1
own_strides 0 => 0 0
own_strides 6,1 => 1,1 1,6
own_strides 2,3,5,7,11,13 => 15015,5005,1001,143,13,1 1,2,6,30,210,2310
own_strides 1,4,1,5,1 => 20,5,5,1,1 1,1,4,4,20
own_strides 3,3,3,0 => 0,0,0,0 0,0,0,0
own_strides 1,9223372036854775808 => -9223372036854775808,1 1,1
own_strides 18446744073709551615,1 => 1,1 1,-1
own_strides 1,1,1 => 1,1,1 1,1,1
own_strides 0,5,6 => 0,0,0 0,0,0
own_strides 4294967296,2147483648 => 2147483648,1 1,4294967296
own_strides 1,18446744073709551615 => -1,1 1,1
own_strides 2,2,2,2,2,2 => 32,16,8,4,2,1 1,2,4,8,16,32
stride_axes 4 -7 / 0 5 / 1 -9 / 6,1,1 2,7,7 => 0 0
stride_axes 2,3,5,7,11,13 1,-2,6,-30,210,2310 => 0 5
stride_axes 3,2,4 8,-8,1 => 2 1
stride_axes 5,5,5,5 0,0,0,0 => 3 3
stride_axes 2,1,3 6,100,1 / 1,1,1 5,4,3 / 2,0,3 -3,9,1 => 2 0
stride_axes 2,2 9223372036854775807,-9223372036854775807 / 1,6 50,-3 => 1 1
stride_axes 2,2 -9223372036854775807,9223372036854775806 => 1 0
stride_axes 2,3,4,5 0,-60,20,0 => 3 1
stride_axes 4,4,4,4,4 -1,1,-1,1,-1 => 4 4
stride_axes 2,3,4,5,6 -360,120,30,-6,1 => 4 0
_fastest_varying_stride_order 7 / 0 => 0
_fastest_varying_stride_order 5,-5 => 0,1
_fastest_varying_stride_order 6,5,4,3,2,1 => 5,4,3,2,1,0
_fastest_varying_stride_order 0,0,0 => 0,1,2
_fastest_varying_stride_order 9223372036854775807,-9223372036854775807,0 => 2,0,1
_fastest_varying_stride_order 100,-10,1,-10,100 => 2,1,3,0,4
_fastest_varying_stride_order -3,3,2,-2,1,-1 => 4,5,2,3,0,1
_fastest_varying_stride_order -1,-2,-3,-4,-5,-6 / 1,1,1,1,1,1 => 0,1,2,3,4,5
_fastest_varying_stride_order -9223372036854775807,1,9223372036854775806,-1 => 1,3,2,0
_fastest_varying_stride_order 24,-12,4,0 => 3,2,1,0
insert_axis 5 0 => 1,5
insert_axis 5 1 => 5,1
insert_axis 0,0 1 => 0,1,0
insert_axis 2,3,4 3 => 2,3,4,1
insert_axis 2,3,4,5 2 => 2,3,1,4,5
insert_axis 6,5,4,3,2 5 => 6,5,4,3,2,1
insert_axis 18446744073709551615,0,3,1,2,9 6 => 18446744073709551615,0,3,1,2,9,1
insert_axis 18446744073709551615,0,3,1,2,9 3 => 18446744073709551615,0,3,1,1,2,9
insert_axis 1,1 2 => 1,1,1
insert_axis 2,3,4 0 => 1,2,3,4
insert_axis 7,0,9 2 => 7,0,1,9
insert_axis 2,3,4,5 0 => 1,2,3,4,5
insert_axis 6,5,4,3,2 0 => 1,6,5,4,3,2
insert_axis 18446744073709551615,0,3,1,2,9 0 => 1,18446744073709551615,0,3,1,2,9
try_remove_axis - 0 / 0 0 => -
try_remove_axis 8,9 1 => 8
try_remove_axis 2,3,4 0 => 3,4
try_remove_axis 2,3,4,5 3 => 2,3,4
try_remove_axis 6,5,4,3,2 0 => 5,4,3,2
try_remove_axis 18446744073709551615,0,3,1,2,9 3 => 18446744073709551615,0,3,2,9
try_remove_axis 18446744073709551615,0,3,1,2,9 5 => 18446744073709551615,0,3,1,2
try_remove_axis 0,1 0 => 1
try_remove_axis 2,3,4 2 => 2,3
try_remove_axis 7,0,9 1 => 7,9
try_remove_axis 2,3,4,5 0 => 3,4,5
try_remove_axis 2,3,4,5 1 => 2,4,5
try_remove_axis 6,5,4,3,2 4 => 6,5,4,3
try_remove_axis 18446744073709551615,0,3,1,2,9 0 => 0,3,1,2,9
is_contiguous 7 1 / 0 -9223372036854775808 / 2,3,4 12,4,1 / 2,3,4 1,2,6 / 2,3,4 4,8,1 / 2,3,4 12,-4,1 => true
is_contiguous 7 -2 / 2,3,4 12,4,2 / 2,3,4 12,5,1 / 3,1,2 4,2,1 / 0,3 5,1 / 2,2,2,2,2,2 32,16,8,4,1,1 => false
is_contiguous 3,1,2 2,100,1 / 0,3 3,1 / 0,3 0,0 / 2,2,2,2,2,2 -32,16,-8,4,-2,1 / 4611686018427387903,2 -2,1 => true
is_contiguous 4611686018427387903,2 1,4611686018427387903 / 0 0 / 2,3,4 -4,-8,1 / 3,1,2 2,-100,-1 => true
is_contiguous 4611686018427387903,2 1,-4611686018427387904 => false
is_contiguous 2,2,2,2,2,2 1,2,4,8,16,32 => true
stride_offset_checked - - - / 5 -2 0 / 2,3,4 12,-4,1 0,0,0 / 2,1 9223372036854775807,-9223372036854775808 0,0 => 0
stride_offset_checked - - 0 / 5 -2 5 / 5 -2 - / 5 -2 4,0 / 2,3,4 12,-4,1 2,0,0 / 2,3,4 12,-4,1 1,2 => None
stride_offset_checked 5 -2 4 / 2,3,4 12,-4,1 0,2,0 => -8
stride_offset_checked 2,3,4 12,-4,1 1,2,3 / 3,2 2,3 2,1 => 7
stride_offset_checked 2,3,4 12,-4,1 1,0,3 => 15
stride_offset_checked 2,3,4 12,-4,1 1,2,3,0 / 2,3,4 12,-4,1 18446744073709551615,0,0 => None
stride_offset_checked 2,1 9223372036854775807,-9223372036854775808 1,0 => 9223372036854775807
stride_offset_checked 2,1 9223372036854775807,-9223372036854775808 1,1 / 2,0,3 7,7,7 1,1 => None
stride_offset_checked 9223372036854775807 -1 9223372036854775806 => -9223372036854775806
stride_offset_checked 9223372036854775807 -1 9223372036854775807 / 2,0,3 7,7,7 0,0,0 / 2,0,3 7,7,7 1,0,2 => None
stride_offset_checked 2,3,1,2,5,2 60,20,7,-10,2,-1 1,2,0,1,4,1 => 97
stride_offset_checked 2,3,1,2,5,2 60,20,7,-10,2,-1 0,0,0,1,0,1 => -11
stride_offset_checked 2,3,1,2,5,2 60,20,7,-10,2,-1 1,2,1,1,4,1 / 2,3,1,2,5,2 60,20,7,-10,2,-1 1,2,0,1,4,2 => None
stride_offset_checked 2,3,1,2,5,2 60,20,7,-10,2,-1 1,2,0,1,4 / 2,3,4 12,-4,1 0,3,0 / 2,3,4 12,-4,1 0,0,4 => None
stride_offset_checked 5 -1 4 => -4
stride_offset_checked 2,3 -3,-1 1,2 => -5
stride_offset_checked 3,4,5 1,3,12 2,3,4 => 59
stride_offset_checked 2,3,4,5 60,20,5,1 1,2,3,4 => 119
stride_offset_checked 2,3,4,5,6 1,2,6,24,120 1,2,3,4,5 / 1,2,3,4,5,6 720,360,120,30,6,1 0,1,2,3,4,5 => 719
stride_offset_checked 1,2,3,4,5,6 720,360,120,30,6,1 1,2,3,4,5,6 => None
merge_axes 2,2 6148914691236517204,3074457345618258602 0,1 => true 1,4 6148914691236517204,3074457345618258602
merge_axes 2,2 -6148914691236517204,-3074457345618258602 0,1 => true 1,4 -6148914691236517204,-3074457345618258602
merge_axes 2,2 -6148914691236517204,3074457345618258602 0,1 => false 2,2 -6148914691236517204,3074457345618258602
merge_axes 9223372036854775807,1 1,-9223372036854775808 0,1 => true 1,9223372036854775807 1,1
merge_axes 3,1 5,7 0,1 => true 1,3 5,5
merge_axes 3,0 5,7 0,1 => true 0,0 5,5
merge_axes 3,2,4,5,2 4,100,1,1000,9 0,2 => true 1,2,12,5,2 4,100,1,1000,9
merge_axes 3,2,4 4,100,1 2,0 => false 3,2,4 4,100,1
move_min_stride_axis_to_last 5 3 => moved 5 3
move_min_stride_axis_to_last 2,3 -2,2 => moved 2,3 -2,2
move_min_stride_axis_to_last 2,3 1,-2 => moved 3,2 -2,1
move_min_stride_axis_to_last 1,3 1,2 => moved 1,3 1,2
move_min_stride_axis_to_last 3,1 1,2 => moved 1,3 2,1
move_min_stride_axis_to_last 2,3,4 2,-2,2 => moved 4,3,2 2,-2,2
move_min_stride_axis_to_last 1,1,1 3,2,1 => moved 1,1,1 3,2,1
move_min_stride_axis_to_last 1,2,1 0,7,1 => moved 1,1,2 0,1,7
move_min_stride_axis_to_last 2,3,4,5 9,1,8,2 => moved 2,5,4,3 9,2,8,1
is_layout 9223372036854775807 -1 / 2 9223372036854775807 / 4611686018427387903,2 1,-4611686018427387903 => false false
is_layout 9223372036854775807,1 1,-9223372036854775808 => true true
is_layout 4611686018427387903,2 1,4611686018427387903 => false true";

#[test]
fn answers_of_ndarray() {
    assert_rows(ANSWERS, answer);
}
