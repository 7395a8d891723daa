//! Calls of a value of any number of axes, and of one of six: the first list is the value, the second one an axis.

use crate::call::Call;
use ndarray_layout::{
    Axis, Dimension, IntoDimension, Ix6, IxDyn, Lengths, RemoveAxis, ShapeArg, ShapeBuilder, StrideShape, Strides,
    default_strides, fortran_strides, new_dim,
};

/// What a call of a value answers, after the name of its group.
pub fn of_any(call: &Call) -> Option<String> {
    let dim = call.dim(0);
    match call.name.split_once("::") {
        Some(("ShapeBuilder", name)) => built(call, name, dim, call.dim(0)),
        Some(("IntoDimension", name)) => handed_on(call, name, dim),
        Some(("Dimension", name)) => of_dimension(call, name, &dim),
        Some(("Axis", name)) => of_axis(call, name, &dim),
        _ => of_lengths(call, &dim),
    }
}

fn of_lengths(call: &Call, dim: &IxDyn) -> Option<String> {
    Some(match call.name {
        "Lengths::zeros" => call.told(|| IxDyn::zeros(dim.ndim())),
        "Lengths::duplicate" => call.told(|| dim.duplicate()),
        "default_strides" => call.told(|| default_strides(dim)),
        "fortran_strides" => call.told(|| fortran_strides(dim)),
        "strides_for_dim" => call.told(|| Strides::F.strides_for_dim(dim)),
        _ => return None,
    })
}

fn of_dimension(call: &Call, name: &str, dim: &IxDyn) -> Option<String> {
    Some(match name {
        "default_strides" => call.told(|| dim.default_strides()),
        "fortran_strides" => call.told(|| dim.fortran_strides()),
        "default_in" => call.told(IxDyn::default_in),
        "_fastest_varying_stride_order" => call.told(|| dim._fastest_varying_stride_order()),
        "first_index" => call.told(|| dim.first_index()),
        "from_dimension" => call.told(|| IxDyn::from_dimension(dim)),
        _ => return None,
    })
}

fn of_axis(call: &Call, name: &str, dim: &IxDyn) -> Option<String> {
    let axis = Axis(call.list(1)[0]);
    Some(match name {
        "insert_axis" => call.told(|| dim.insert_axis(axis)),
        "try_remove_axis" => call.told(|| dim.try_remove_axis(axis)),
        "remove_axis" => call.told(|| dim.remove_axis(axis)),
        _ => return None,
    })
}

fn handed_on(call: &Call, name: &str, dim: IxDyn) -> Option<String> {
    Some(match name {
        "into_dimension" => call.told(|| dim.into_dimension()),
        "new_dim" => call.told(|| new_dim(dim)),
        "into_dyn" => call.told(|| dim.into_dyn()),
        "into_shape_and_order" => call.told(|| dim.into_shape_and_order()),
        _ => return None,
    })
}

/// What a call of a builder answers.
pub fn built<T>(call: &Call, name: &str, builder: T, strides: T) -> Option<String>
where
    T: ShapeBuilder<Dim = IxDyn, Strides = T>,
{
    Some(match name {
        "into_shape_with_order" => call.told(|| builder.into_shape_with_order()),
        "f" => call.told(|| builder.f()),
        "set_f" => call.told(|| builder.set_f(true)),
        "strides" => call.told(|| builder.strides(strides)),
        "from_builder" => call.told(|| StrideShape::from_builder(builder)),
        _ => return None,
    })
}

/// What a call of a value of six axes answers whose type fixes them, and that of its answer doesn't.
pub fn of_six(call: &Call) -> Option<String> {
    let dim = Ix6::from_dimension(&call.dim(0)).ok()??;
    Some(match call.name {
        "Dimension::from_dimension" => call.told(|| IxDyn::from_dimension(&dim)),
        "IntoDimension::into_dyn" => call.told(|| dim.into_dyn()),
        "Axis::insert_axis" => call.told(|| dim.insert_axis(Axis(6))),
        _ => return None,
    })
}
