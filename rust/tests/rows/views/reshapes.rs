//! What ndarray 0.17.2 returns of reshapes of layouts of one to five axes, with gaps, steps back and strides of 0.

use super::calls::answer;
use crate::table::{Words, assert_rows, layout_kind, strides};
use ndarray_layout::{IxDyn, Order, reshape_dim};

/// `SHAPE STRIDES SHAPE => STRIDES`, or the fault.
pub fn reshaped(words: &mut Words, order: Order) -> String {
    let [from, kept, to]: [IxDyn; 3] = std::array::from_fn(|_| words.dim());
    reshape_dim(&from, &kept, &to, order).map_or_else(layout_kind, |found: IxDyn| strides(&found))
}

#[test]
fn answers_of_ndarray() {
    assert_rows(BY_ROWS, answer);
    assert_rows(BY_COLUMNS, answer);
}

/// 88 layouts and shapes in both orders: 52 with strides, 24 with a joint in the way and 12 of another size. Each
/// answer is what ndarray's own function gives at its type of any number of axes, called by a program over ndarray's
/// sources.
const BY_ROWS: &str = "\
reshape_dim_C 3,12 1,0 3,1,6,2 => 1,1,0,0
reshape_dim_C 20,1,1,6,1 6,6,-9,1,1 1,2,3,5,4 => 1,60,20,4,1
reshape_dim_C 2,2,10,9 -180,-90,-9,-1 1,20,18 => 1,-18,-1
reshape_dim_C 2,180 900,5 4,15,1,6 => 450,30,30,5
reshape_dim_C 1,1,1,8 8,0,-3,1 1,4,1,2,1 => 8,2,2,1,1
reshape_dim_C 1,2,1,1,2 2,-6,4,-7,-1 1,2,1,2 => 2,-6,4,-1
reshape_dim_C 4,6 60,5 4,1,3,2 => 60,1,10,5
reshape_dim_C 10,9,1,4,1 72,8,4,2,2 180,1,2 => 4,4,2
reshape_dim_C 12,1 1,2 2,1,2,1,3 => 6,6,3,3,1
reshape_dim_C 1,1,1,8 -8,-8,-8,-1 2,1,4 => -4,-4,-1
reshape_dim_C 2,2,4 -24,-12,-3 2,2,4,1 => -24,-12,-3,1
reshape_dim_C 2,2,1,1,1 2,1,-3,9,5 1,4 => 1,1
reshape_dim_C 6,1,3,20 60,-3,20,1 18,5,4 => 20,4,1
reshape_dim_C 6,2,4,1 8,4,1,1 4,12 => 12,1
reshape_dim_C 4,6,2 -12,-2,-1 6,2,4 => -8,-4,-1
reshape_dim_C 2,1,1,4 -12,-12,9,-3 4,2 => -6,-3
reshape_dim_C 2,90,1,2 180,2,6,1 3,120 => 120,1
reshape_dim_C 3,1,120,1 600,1,5,-1 6,5,4,3 => 300,60,15,5
reshape_dim_C 1,2,1,4 -1,4,4,1 2,4 => 4,1
reshape_dim_C 3,4,1 20,5,0 2,3,2 => 30,10,5
reshape_dim_C 8,6,1 6,1,-6 6,4,2 => 8,2,1
reshape_dim_C 2,12,3,1 -36,-3,-1,6 4,9,2 => -18,-2,-1
reshape_dim_C 2,1,3,1,1 3,-3,1,-2,1 3,2 => 2,1
reshape_dim_C 12,5,2 -60,-12,-3 10,6,2 => -72,-12,-3
reshape_dim_C 4,1,1,1 2,2,1,-6 2,2 => 4,2
reshape_dim_C 1,10,12,1,1 -8,12,1,1,1 120 => 1
reshape_dim_C 4,15,1 30,1,7 60 => IncompatibleLayout
reshape_dim_C 5,1,1,24 -24,-24,24,1 6,20 => IncompatibleLayout
reshape_dim_C 1,2,2,2 5,1,-2,-4 4,2,1,1,1 => IncompatibleLayout
reshape_dim_C 1,1,1,15,2 -30,-30,-30,-2,1 1,6,5 => IncompatibleLayout
reshape_dim_C 2,1,2,1,1 6,2,1,9,1 6,2,1,1 => IncompatibleLayout
reshape_dim_C 4,2,1,1 12,2,1,-3 1,2,4 => IncompatibleLayout
reshape_dim_C 1,2,1,3,2 1,1,-3,4,12 3,2,2 => IncompatibleLayout
reshape_dim_C 4,2,2 48,12,2 16 => IncompatibleLayout
reshape_dim_C 1,1,6,1,5 -1,-1,-1,6,6 1,30 => IncompatibleLayout
reshape_dim_C 3,2,2,3 -60,-30,-15,5 36 => IncompatibleLayout
reshape_dim_C 2,2,1,9,10 1,2,-4,4,36 6,20,3 => IncompatibleLayout
reshape_dim_C 3,4,1,1 5,15,2,1 12 => IncompatibleLayout
reshape_dim_C 1,2,4,2 -7,-24,-6,-3 6,1,4,1 => IncompatibleShape
reshape_dim_C 1,18,1,1,2 5,2,3,-1,1 6,1 => IncompatibleShape
reshape_dim_C 2,2 -6,-3 3,2,4 => IncompatibleShape
reshape_dim_C 1,1,2,2 4,4,2,1 1,1,1,6,4 => IncompatibleShape
reshape_dim_C 12,6 6,1 6,1,2,2 => IncompatibleShape
reshape_dim_C 30,1 -1,-1 2,1,1,2,2 => IncompatibleShape";

const BY_COLUMNS: &str = "\
reshape_dim_F 24 1 3,4,2,1,1 => 1,3,12,1,1
reshape_dim_F 1,30,1 -6,2,2 1,1,1,30,1 => 1,1,-6,2,2
reshape_dim_F 2,1,2,1,1 2,4,4,6,-9 2,2,1,1 => 2,4,6,-9
reshape_dim_F 1,6,1,2,1 -9,1,6,6,-6 1,6,2 => -9,1,6
reshape_dim_F 1,2,4 9,-1,-6 2,2,2,1 => -1,-6,-12,1
reshape_dim_F 1,1,2,2,4 5,5,5,10,20 2,4,1,1,2 => 5,10,40,40,40
reshape_dim_F 6,20 5,30 1,1,4,3,10 => 1,1,5,20,60
reshape_dim_F 3,2 1,3 1,1,1,1,6 => 1,1,1,1,1
reshape_dim_F 1,4,9 -6,2,8 36,1 => 2,1
reshape_dim_F 2,3,1 -3,-6,-4 3,2,1 => -3,-9,-4
reshape_dim_F 2,2,2,1 1,2,4,-7 1,2,4 => 1,1,2
reshape_dim_F 2,1,1,1,2 -1,3,-2,3,-2 1,1,2,2 => 1,1,-1,-2
reshape_dim_F 1,2,2,1 -3,-3,-6,-12 4 => -3
reshape_dim_F 1,1,2,12 1,-1,1,2 24 => 1
reshape_dim_F 3,2,2,1,1 -3,-9,-18,-36,-5 6,2 => -3,-18
reshape_dim_F 1,6,8 2,2,12 4,12 => 2,8
reshape_dim_F 1,2,3,2,1 8,5,10,30,60 6,2 => 5,30
reshape_dim_F 20,3,2 1,20,60 24,5 => 1,24
reshape_dim_F 3,120,1,1 1,3,7,360 2,6,30 => 1,2,12
reshape_dim_F 1,10,3 0,5,50 10,3 => 5,50
reshape_dim_F 2,3,1,4 -3,-6,-8,-18 24 => -3
reshape_dim_F 8,1,1,3 1,9,-5,8 24 => 1
reshape_dim_F 3,2,1,2,5 1,3,-7,6,12 5,12 => 1,5
reshape_dim_F 1,12,1,4 -3,-3,-36,-36 3,2,8 => -3,-9,-18
reshape_dim_F 1,1,2,2,1 1,1,1,2,4 4 => 1
reshape_dim_F 1,6,4,1 -1,-1,-6,9 24 => -1
reshape_dim_F 1,3,2 6,2,-1 1,1,2,3 => IncompatibleLayout
reshape_dim_F 18,4 1,0 3,8,3 => IncompatibleLayout
reshape_dim_F 1,3,1,20,1 -6,5,15,30,-3 6,5,2 => IncompatibleLayout
reshape_dim_F 3,1,2,10,2 1,-3,9,18,-180 120 => IncompatibleLayout
reshape_dim_F 4,3,1 2,0,-7 12 => IncompatibleLayout
reshape_dim_F 4,3,5,1,2 -30,-10,-2,-6,1 5,1,2,3,2 => IncompatibleLayout
reshape_dim_F 4,18 -54,-3 1,4,1,10 => IncompatibleLayout
reshape_dim_F 12,4 -1,-36 8,3,1,2 => IncompatibleLayout
reshape_dim_F 15,8,3 1,-15,-120 30,12 => IncompatibleLayout
reshape_dim_F 36,2,1 -3,-216,9 2,1,2,1,18 => IncompatibleLayout
reshape_dim_F 2,2,30 2,4,-8 12,10,1 => IncompatibleLayout
reshape_dim_F 2,9,10,2 -1,-2,-18,-360 36,2,1,5 => IncompatibleLayout
reshape_dim_F 1,2,1,5,3 -2,5,-7,10,50 3,2,1,4 => IncompatibleShape
reshape_dim_F 15,4,2 1,15,60 4,1,2,1 => IncompatibleShape
reshape_dim_F 5,24,1,1 1,5,8,-4 60 => IncompatibleShape
reshape_dim_F 6 1 2,3,1,2,5 => IncompatibleShape
reshape_dim_F 12 1 1,1,1,8,1 => IncompatibleShape
reshape_dim_F 5,1,1,18,4 -1,6,8,-5,-90 2,1,1,6 => IncompatibleShape";
