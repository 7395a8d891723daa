//! The calls of a layout: its lengths and its strides.

use super::calls::Lists;
use crate::table::{dim_of, kind, lengths, strides};
use ndarray_layout::CanIndexCheckMode::OwnedMutable;
use ndarray_layout::{
    Axis, Lengths, Strides, can_index_slice_not_custom, can_index_slice_with_strides, is_layout_c, is_layout_f,
    merge_axes, move_min_stride_axis_to_last, strides_non_negative,
};

/// Their names.
pub const CALLS: [&str; 5] =
    ["can_index_slice_not_custom", "strides_non_negative", "merge_axes", "move_min_stride_axis_to_last", "is_layout"];

/// What a call gives at a type; `None` where the type has no value of the lists.
pub fn answer_at<D: Lengths>(call: &str, [lens, second, third]: &Lists) -> Option<String> {
    let mut dim: D = dim_of(lens)?;
    match call {
        "can_index_slice_not_custom" => return Some(acceptance(&dim, second[0])),
        "strides_non_negative" => return Some(fault(strides_non_negative(&dim))),
        _ => {}
    }
    let mut other: D = dim_of(second)?;
    let word = match call {
        "is_layout" => return Some(format!("{} {}", is_layout_c(&dim, &other), is_layout_f(&dim, &other))),
        "merge_axes" => merge_axes(&mut dim, &mut other, Axis(third[0]), Axis(third[1])).to_string(),
        _ => {
            move_min_stride_axis_to_last(&mut dim, &mut other);
            "moved".to_owned()
        }
    };
    Some(format!("{word} {} {}", lengths(&dim), strides(&other)))
}

/// The kind of an error, or `none`.
fn fault(outcome: Result<(), ndarray_layout::ShapeError>) -> String {
    outcome.map_or_else(kind, |()| "none".to_owned())
}

/// The fault of a shape by its own strides over so many elements, which it has in either order.
fn acceptance<D: Lengths>(dim: &D, len: usize) -> String {
    let accepted = fault(can_index_slice_not_custom(len, dim));
    for order in [Strides::C, Strides::F] {
        assert!(!order.is_custom());
        assert_eq!(fault(can_index_slice_with_strides(1, len, dim, &order, OwnedMutable)), accepted);
    }
    accepted
}
