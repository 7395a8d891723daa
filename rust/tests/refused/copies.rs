//! Copies, which have no error to return.

use crate::allocator::failing_at;
use ndarray_layout::{
    Axis, CanIndexCheckMode, Fit, Ix2, Ix6, IxDyn, NewAxis, Order, OwnedArray, Step, Strided, all_indices, compat,
};
use std::panic::{AssertUnwindSafe, catch_unwind};

/// A view of a shape over one item, with strides that are its lengths.
fn view_of(shape: &IxDyn) -> Strided<IxDyn> {
    Strided::new(shape.clone(), shape.clone(), 1, 1, CanIndexCheckMode::ReadOnly).expect("a view")
}

#[test]
fn a_copy_panics_where_its_allocation_fails() {
    let array = OwnedArray::from_shape_vec(Ix2(2, 3), vec![0; 6]).expect("an array");
    let shape = IxDyn(&[1; 6]);
    let view = view_of(&shape);
    let step = Step::Slice(vec![NewAxis.into()], Fit::Strict);
    let indices = all_indices(shape.clone()).expect("indices");
    let iter = indices.clone().into_iter();
    let copies: [&dyn Fn(); 8] = [
        &|| drop(array.clone()),
        &|| drop(shape.clone()),
        &|| drop(view.clone()),
        &|| drop(step.clone()),
        &|| drop(indices.clone()),
        &|| drop(iter.clone()),
        &|| drop(iter.clone().next()),
        &|| drop(view.crop(&shape, &shape)),
    ];
    assert_panics(&copies);
}

/// Asserts that each call panics where its first allocation fails.
fn assert_panics(calls: &[&dyn Fn()]) {
    for (number, call) in calls.iter().enumerate() {
        let (returned, _) = failing_at(0, || catch_unwind(AssertUnwindSafe(call)));
        assert!(returned.is_err(), "{number}");
        let (_, made) = failing_at(usize::MAX, call);
        assert!(made > 0, "{number}");
    }
}

#[test]
fn a_call_by_ndarrays_signature_panics_where_its_allocation_fails() {
    let shape = IxDyn(&[1; 6]);
    let longer = IxDyn(&[1; 7]);
    let lens = [1; 6];
    let view = view_of(&shape);
    let calls: [&dyn Fn(); 16] = [
        &|| drop(compat::IntoDimension::into_dimension(&lens[..])),
        &|| drop(compat::ShapeBuilder::f(&lens[..])),
        &|| drop(compat::ShapeBuilder::strides(&lens[..], &lens[..])),
        &|| drop(compat::ShapeArg::into_shape_and_order(&lens[..])),
        &|| drop(compat::Dimension::default_strides(&shape)),
        &|| drop(compat::Dimension::fortran_strides(&shape)),
        &|| drop(<IxDyn as compat::Dimension>::zeros(6)),
        &|| drop(compat::Dimension::first_index(&shape)),
        &|| drop(compat::Dimension::_fastest_varying_stride_order(&shape)),
        &|| drop(compat::Dimension::into_dyn(Ix6(1, 1, 1, 1, 1, 1))),
        &|| drop(<IxDyn as compat::Dimension>::from_dimension(&shape)),
        &|| drop(compat::Dimension::insert_axis(&shape, Axis(0))),
        &|| drop(compat::RemoveAxis::remove_axis(&shape, Axis(0))),
        &|| drop(compat::co_broadcast::<_, _, IxDyn>(&shape, &shape)),
        &|| drop(compat::reshape_dim(&shape, &shape, &longer, Order::C)),
        &|| drop(compat::NdProducer::raw_dim(&view)),
    ];
    assert_panics(&calls);
}
