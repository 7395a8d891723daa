//! Arrays that own their items, 0 and so on.

use super::calls::answer;
use super::iterated::items_of;
use super::layout::{parts, read_strides};
use crate::table::{Words, assert_rows, elems, layout_kind, list, numbers};
use ndarray_layout::{Lengths, OwnedArray, SliceInfoElem, StrideShape};

/// What a call returns of the array of the next words, `SHAPE C|F|STRIDES COUNT`, and the items that are then stored.
pub fn answer_at<D: Lengths>(call: &str, words: &mut Words) -> String {
    let shape = StrideShape { dim: words.dim::<D>(), strides: read_strides(words) };
    let mut array = match OwnedArray::from_shape_vec(shape, (0..words.number()).collect()) {
        Ok(array) => array,
        Err((error, items)) => return format!("{} {}", layout_kind(error), list(items)),
    };
    match call {
        "from_shape_vec" => format!("Ok {}", list(array.stored())),
        "items" => array.items(&words.elems()).map_or_else(layout_kind, list),
        "get" => array.get(&words.dim::<D>()).map_or("none".to_owned(), |item| item.to_string()),
        "set" => format!("{} {}", array.set(&words.dim::<D>(), words.number()), list(array.stored())),
        "multi_set" => {
            let outcome = array.multi_set(&writes(words));
            format!("{} {}", outcome.map_or_else(layout_kind, |()| "Ok".to_owned()), list(array.stored()))
        }
        "view" => viewed(&array),
        "stored_mut" => {
            let (place, item): (usize, usize) = (words.number(), words.number());
            array.stored_mut()[place] = item;
            list(array.into_stored())
        }
        "iter" => list(items_of(array.iter())),
        _ => panic!("unknown: {call}"),
    }
}

/// The slices and the items for them of all words that are left.
fn writes(words: &mut Words) -> Vec<(Vec<SliceInfoElem>, Vec<usize>)> {
    let mut writes = Vec::new();
    while let Some(slice) = words.try_word() {
        writes.push((elems(slice), numbers(words.word())));
    }
    writes
}

/// `SHAPE STRIDES START COUNT`, of the view and of the indices.
fn viewed<D: Lengths>(array: &OwnedArray<usize, D>) -> String {
    let count = array.len();
    assert_eq!(array.is_empty(), count == 0);
    assert!(array.dim().equal(array.strided().dim()));
    format!("{} {count}", parts(array.strided()))
}

/// The view of two rows of three items with a spare one, and a write to that.
const TWO_ROWS: &str = "\
view Ix2 2,3 -3,1 7 => 2,3 -3,1 3 6
stored_mut Ix2 2,3 C 7 6 9 => 0,1,2,3,4,5,9";

/// Arrays of no axes, of six, and of more axes than a list has.
const OTHER_COUNTS: &str = "\
multi_set Ix2 2,3 C 7 => Ok 0,1,2,3,4,5,6
multi_set Ix0 - C 2 - 7 NewAxis 8 => Unsupported 0,1
multi_set Ix0 - C 2 NewAxis,NewAxis 7 => Ok 7,1
multi_set Ix2 5,1 C 6 4,.. 14 2..;9,.. 12 0,.. 10 3,.. 13 1,.. 11 => Ok 10,11,12,13,14,5
multi_set Ix2 5,1 C 6 4,.. 14 2..;9,.. 12 0,.. 10 1..;2,.. 11,13 2..;2,.. 8,9 => Unsupported 0,1,2,3,4,5
multi_set Ix2 6,1 C 6 4,.. 14 1..;4,.. 11,15 0..;4,.. 10,9 2..;4,.. 12 3..;4,.. 13 => Unsupported 0,1,2,3,4,5
multi_set Ix2 6,1 C 6 4,.. 14 1..;4,.. 11,15 0..1,.. 10 2..;4,.. 12 3..;4,.. 13 => Ok 10,11,12,13,14,15
items Ix0 - C 3 NewAxis => 0
get Ix2 2,3 -3,-1 8 1,2 => 0
get IxDyn 4 C 4 0,0 => none
set Ix0 - C 2 - 9 => true 9,1
view Ix0 - C 2 => - - 0 1
view IxDyn 2,0,2,1,2,1 C 3 => 2,0,2,1,2,1 0,0,0,0,0,0 0 0
stored_mut IxDyn 2 -1 3 2 9 => 0,1,9
from_shape_vec IxDyn 2,1,2,1,2,1 C 8 => Ok 0,1,2,3,4,5,6,7
from_shape_vec IxDyn 2,1,2,1,2,1 F 7 => OutOfBounds 0,1,2,3,4,5,6
items IxDyn 2,1,2,1,2,1 7,9,-3,9,1,9 13 ..,..,..,..,..,.. => 3,4,0,1,10,11,7,8
multi_set IxDyn 2,1,2,1,2,1 7,9,-3,9,1,9 13 1,0,..,0,..;-1,-1 20,21,22,23 0,..,1,..,..,.. 30,31 => \
Ok 30,31,2,3,4,5,6,23,22,9,21,20,12
multi_set IxDyn 2,1,2,1,2,1 7,9,-3,9,1,9 13 0,0,..,0,0,0 1,2 ..,..,1,..,0,.. 3,4 => \
Unsupported 0,1,2,3,4,5,6,7,8,9,10,11,12";

#[test]
fn arrays_at_many_types() {
    assert_rows(TWO_ROWS, answer);
    assert_rows(OTHER_COUNTS, answer);
}

/// Items one after another: none, of no axes, from the last to the first, with spare ones between and after them,
/// stored by columns, and of more axes than a list has.
const IN_TURN: &str = "\
iter Ix1 0 C 0 => -
iter Ix2 2,0 C 3 => -
iter Ix0 - C 1 => 0
iter Ix0 - C 3 => 0
iter Ix1 4 -1 4 => 3,2,1,0
iter Ix1 3 -2 7 => 4,2,0
iter Ix2 2,3 C 7 => 0,1,2,3,4,5
iter Ix2 2,3 F 6 => 0,2,4,1,3,5
iter Ix2 2,3 -4,-1 9 => 6,5,4,2,1,0
iter Ix3 2,3,2 6,-2,1 12 => 4,5,2,3,0,1,10,11,8,9,6,7
iter Ix4 2,2,2,2 1,-2,4,-8 17 => 10,2,14,6,8,0,12,4,11,3,15,7,9,1,13,5
iter Ix5 1,3,1,2,1 F 6 => 0,3,1,4,2,5
iter Ix6 2,1,2,1,2,1 4,9,-2,9,1,9 8 => 2,3,0,1,6,7,4,5
iter IxDyn 2,3 -3,1 6 => 3,4,5,0,1,2
iter IxDyn 2,0,2,1,2,1 C 3 => -
iter IxDyn 2,1,3,1,2 -6,9,1,9,3 12 => 6,9,7,10,8,11,0,3,1,4,2,5
iter IxDyn 2,1,2,1,2,1 7,9,-3,9,1,9 13 => 3,4,0,1,10,11,7,8";

#[test]
fn items_in_turn() {
    assert_rows(IN_TURN, answer);
}
