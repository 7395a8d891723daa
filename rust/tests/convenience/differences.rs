//! What docs/DIFFERENCES.md says that ndarray has and the package not. Where one of these fails, that page is to be changed.

use super::view_of;
use ndarray_layout::{
    DimAdd, DimMax, Dimension, IntoDimension, Ix0, Ix2, IxDyn, IxDynImpl, LayoutError, Lengths, Order, Shape,
    SliceNextDim, all_indices, axes_of, s,
};
use std::marker::PhantomData;
use std::ops::{Index, Range};

/// Whether a type has a trait: the constant of the types that have it hides that of all types.
macro_rules! has {
    ($type:ty: $($bound:tt)+) => {{
        struct Asked<T>(PhantomData<T>);
        #[allow(dead_code)]
        trait Otherwise {
            const ANSWER: bool = false;
        }
        impl<T> Otherwise for Asked<T> {}
        #[allow(dead_code)]
        impl<T: $($bound)+> Asked<T> {
            const ANSWER: bool = true;
        }
        <Asked<$type>>::ANSWER
    }};
}

/// The dimensions with which `DimMax` knows themselves, and those which `DimAdd` adds to `Ix0` and to `IxDyn`.
trait MaxOfItself {}
impl<D: Dimension + DimMax<D>> MaxOfItself for D {}
trait AddedToNone {}
impl<D: Dimension> AddedToNone for D where Ix0: DimAdd<D> {}
trait AddedToDynamic {}
impl<D: Dimension> AddedToDynamic for D where IxDyn: DimAdd<D> {}

#[test]
fn a_trait_that_is_there_is_found() {
    assert!(has!(Ix2: IntoDimension) && has!(Ix2: Default) && has!(IxDynImpl: Index<Range<usize>>));
    assert!(has!(Ix2: MaxOfItself) && has!(Ix2: AddedToNone) && has!(Ix2: AddedToDynamic));
}

/// Whether a generic function has each of these without asking.
fn has_unasked<D: Dimension>() -> [bool; 5] {
    let outputs = [has!(D: MaxOfItself), has!(D: AddedToNone), has!(D: AddedToDynamic)];
    [has!(D: IntoDimension), has!(D: Default), outputs[0], outputs[1], outputs[2]]
}

#[test]
fn a_generic_function_asks_for_no_trait() {
    assert_eq!(has_unasked::<Ix2>(), [true; 5]);
}

/// Calls of ndarray that aren't here: one of the package would hide that of its name.
trait NotHere {
    fn layout(&self) -> bool {
        true
    }

    fn next_in_dim(&self) -> bool {
        true
    }

    fn next_out_dim(&self) -> bool {
        true
    }

    fn slice_axis(&self) -> bool {
        true
    }

    fn slice_collapse(&self) -> bool {
        true
    }
}

impl<T> NotHere for T {}

/// Whether an element of `s!` has no calls.
fn has_no_calls<S: SliceNextDim>(slice: S) -> bool {
    slice.next_in_dim() && slice.next_out_dim()
}

#[test]
fn some_calls_are_not_here() -> Result<(), LayoutError> {
    let view = view_of(Ix2(2, 3))?;
    assert!(has_no_calls(1_usize));
    assert!(view.layout() && all_indices(Ix2(2, 3))?.layout());
    assert!(view.slice_axis() && view.slice_collapse());
    Ok(())
}

/// What stands for `slice_collapse` by `1, ..` and for `slice_axis` by `1..` of axis 1.
#[test]
fn a_slice_stands_for_calls_that_are_not_here() -> Result<(), LayoutError> {
    let view = view_of(Ix2(2, 3))?;
    assert_eq!(view.sliced(s![1..2, ..])?.dim().slice(), [1, 3]);
    let columns: Vec<usize> = view.sliced(s![.., 1..])?.iter_places(Order::RowMajor).collect();
    assert_eq!(columns, [1, 2, 4, 5]);
    Ok(())
}

#[test]
fn debug_has_texts_of_its_own() -> Result<(), LayoutError> {
    assert_eq!(format!("{:?}", Ix2(2, 3)), "Dim { index: [2, 3] }");
    assert_eq!(format!("{:?}", IxDynImpl::from(vec![2, 3])), "[2, 3]");
    let shape = Shape::from(Ix2(2, 3));
    assert_eq!(format!("{shape:?}"), "Shape { dim: Dim { index: [2, 3] }, order: RowMajor }");
    assert_eq!(format!("{:?}", all_indices(Ix2(2, 3))?), "Indices { dim: Dim { index: [2, 3] } }");
    let (lens, strides) = (Ix2(2, 3), Ix2(3, 1));
    assert_eq!(format!("{:?}", axes_of(&lens, &strides)), "Axes { first: 0, lens: [2, 3], strides: [3, 1] }");
    Ok(())
}
