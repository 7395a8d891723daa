//! The calls of a dimension.

use super::calls::Lists;
use crate::table::{dim_of, lengths, strides};
use ndarray_layout::{
    Axis, Dimension, FixedCount, IntoDimension, Ix1, Ix2, Ix3, Ix4, Ix5, Ix6, IxDyn, Lengths, RemoveAxis,
    default_strides, fortran_strides, incompatible_shapes, product,
};

/// What a call gives at a type; `None` where the type has no value of the lists.
pub fn answer_at<D: Dimension + IntoDimension<Dim = D>>(call: &str, lists: &Lists) -> Option<String> {
    let [lens, second, _] = lists;
    let mut dim: D = dim_of(lens)?;
    let axis = || Axis(second[0]);
    Some(match call {
        "kept" => kept(&dim),
        "default_in" if D::NDIM.is_none() => return None,
        "default_in" => lengths(&D::default_in().unwrap()),
        "size_checked" => size(&dim),
        "own_strides" => own_strides(&dim),
        "first_index" => or_none(dim.first_index().unwrap()),
        "last_elem" => dim.last_elem().to_string(),
        "set_last_elem" => {
            dim.set_last_elem(second[0]);
            assert_eq!(dim.last_elem(), second[0]);
            lengths(&dim)
        }
        "_fastest_varying_stride_order" => lengths(&dim._fastest_varying_stride_order().unwrap()),
        "insert_axis" => widened(&dim, axis()),
        "try_remove_axis" => narrowed(&dim, axis()),
        "incompatible_shapes" => format!("{:?}", incompatible_shapes(&dim, &IxDyn(second)).kind()),
        "from_dimension" => return made_of::<D>(second),
        _ => return with_others(call, dim, lists),
    })
}

/// What a call gives of the lengths and of lists of as many axes.
fn with_others<D: Dimension>(call: &str, dim: D, [_, second, third]: &Lists) -> Option<String> {
    if call == "strides_equivalent" {
        return Some(dim.strides_equivalent(&dim_of::<D>(third)?, &IxDyn(second)).to_string());
    }
    let other: D = dim_of(second)?;
    Some(match call {
        "next_for" => or_none(dim.next_for(other)),
        "next_for_f" => next_by_columns(&dim, other),
        "is_contiguous" => D::is_contiguous(&dim, &other).to_string(),
        "stride_axes" => format!("{} {}", dim.min_stride_axis(&other).0, dim.max_stride_axis(&other).0),
        "stride_offset_checked" => match dim.stride_offset_checked(&other, &dim_of(third)?) {
            Some(offset) => offset.to_string(),
            None => "None".to_owned(),
        },
        _ => panic!("unknown: {call}"),
    })
}

fn or_none<D: Lengths>(dim: Option<D>) -> String {
    dim.map_or("None".to_owned(), |dim| lengths(&dim))
}

/// The list of a value, which each call that makes the same list again keeps.
fn kept<D: Dimension + IntoDimension<Dim = D>>(dim: &D) -> String {
    let copy = || dim.duplicate().unwrap();
    assert!(copy() == *dim && copy().equal(dim));
    assert_eq!(copy().into_pattern().into_dimension().unwrap().slice(), dim.slice());
    assert_eq!(copy().into_dimension().unwrap().slice(), dim.slice());
    assert_eq!(copy().into_dyn().unwrap().slice(), dim.slice());
    assert_eq!(dim.ndim(), dim.slice().len());
    lengths(dim)
}

/// The product of the lengths, where it fits.
fn size<D: Dimension>(dim: &D) -> String {
    let Some(size) = dim.size_checked() else {
        return "None".to_owned();
    };
    assert_eq!((dim.size(), product(dim.slice())), (size, size));
    size.to_string()
}

/// The strides by rows and by columns, as the shape makes them and as its list does.
fn own_strides<D: Dimension>(dim: &D) -> String {
    let (by_rows, by_columns) = (dim.default_strides().unwrap(), dim.fortran_strides().unwrap());
    assert_eq!(by_rows, default_strides(dim).unwrap());
    assert_eq!(by_columns, fortran_strides(dim).unwrap());
    format!("{} {}", strides(&by_rows), strides(&by_columns))
}

/// The lengths with one axis more, at the type with one axis more.
fn widened<D: Dimension>(dim: &D, axis: Axis) -> String {
    assert_eq!(D::Larger::NDIM, D::NDIM.map(|count| count + 1).filter(|count| *count <= 6));
    lengths(&dim.insert_axis(axis).unwrap())
}

/// The lengths with one axis less, at the type with one axis less.
fn narrowed<D: Dimension>(dim: &D, axis: Axis) -> String {
    assert_eq!(D::Smaller::NDIM, D::NDIM.map(|count| count.saturating_sub(1)));
    lengths(&dim.try_remove_axis(axis).unwrap())
}

/// A value of the type made of another list, or none where the type fixes another count. At `IxDyn` there always is one.
fn made_of<D: Dimension>(lens: &[usize]) -> Option<String> {
    let made = D::from_dimension(&IxDyn(lens)).unwrap();
    if D::NDIM.is_none() {
        assert_eq!(made.unwrap().slice(), lens);
        return None;
    }
    Some(or_none(made))
}

/// The index after one by columns. Where there is none, zeros are left.
fn next_by_columns<D: Dimension>(dim: &D, mut index: D) -> String {
    if dim.next_for_f(&mut index) {
        return lengths(&index);
    }
    assert!(index.slice().iter().all(|coordinate| *coordinate == 0));
    "None".to_owned()
}

/// The lengths without an axis, at the type of so many axes.
pub fn removed_at(axes: Option<usize>, [lens, axis, _]: &Lists) -> Option<String> {
    fn removed<D: RemoveAxis>(lens: &[usize], axis: usize) -> Option<String> {
        Some(lengths(&dim_of::<D>(lens)?.remove_axis(Axis(axis)).unwrap()))
    }
    match axes {
        Some(1) => removed::<Ix1>(lens, axis[0]),
        Some(2) => removed::<Ix2>(lens, axis[0]),
        Some(3) => removed::<Ix3>(lens, axis[0]),
        Some(4) => removed::<Ix4>(lens, axis[0]),
        Some(5) => removed::<Ix5>(lens, axis[0]),
        Some(6) => removed::<Ix6>(lens, axis[0]),
        _ => removed::<IxDyn>(lens, axis[0]),
    }
}
