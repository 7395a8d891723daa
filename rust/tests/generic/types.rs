//! The types that go with a dimension type: of more axes and fewer, and those of results.

use crate::{OfAny, for_each_type};
use ndarray_layout::{
    Axis, Dim, DimAdd, DimMax, Dimension, DimensionExt, IntoDimension, Ix0, Ix1, Ix2, Ix3, Ix4, Ix6, IxDyn,
    LayoutError, Lengths, NdIndex, RemoveAxis, co_broadcast,
};
use std::any::TypeId;
use std::fmt::Debug;
use std::ops::{Add, AddAssign, IndexMut, Mul, MulAssign, Sub, SubAssign};

/// The shape that two broadcast to, where both have the same type.
fn common<D: Dimension>(shape: &D, other: &D) -> Result<<D as DimMax<D>>::Output, LayoutError> {
    co_broadcast::<D, D, D>(shape, other)
}

fn common_of_two<A, B>(shape: &A, other: &B) -> Result<<A as DimMax<B>>::Output, LayoutError>
where
    A: Dimension + DimMax<B>,
    B: Dimension,
{
    co_broadcast(shape, other)
}

/// The shape of an outer product: all axes of both.
fn joined<A, B>(shape: &A, other: &B) -> <A as DimAdd<B>>::Output
where
    A: Dimension + DimAdd<B>,
    B: Dimension,
{
    let lens = [shape.slice(), other.slice()].concat();
    let mut joined = <A as DimAdd<B>>::Output::zeros(lens.len()).expect("memory");
    joined.slice_mut().copy_from_slice(&lens);
    joined
}

/// A shape with an axis more, as `insert_axis` and as `DimAdd` say its type.
fn with_one_more<D: Dimension>(shape: &D) -> (D::Larger, <D as DimAdd<Ix1>>::Output) {
    let larger = shape.insert_axis(Axis(0)).expect("memory");
    let (joined, removed) = (joined(shape, &Ix1(1)), larger.remove_axis(Axis(0)).expect("memory"));
    assert_eq!(removed.slice(), shape.slice());
    (larger, joined)
}

/// The sum over an axis has the axis no longer.
fn shape_of_sum<D: RemoveAxis>(shape: &D, axis: Axis) -> D::Smaller {
    shape.remove_axis(axis).expect("memory")
}

/// All axes but the first two, where both are there.
fn inner_shape<D>(shape: &D) -> <D::Smaller as Dimension>::Smaller
where
    D: RemoveAxis<Smaller: RemoveAxis>,
{
    shape_of_sum(&shape_of_sum(shape, Axis(0)), Axis(0))
}

struct Types;

impl OfAny for Types {
    fn call<D: Dimension + 'static>(&self, shape: D) {
        assert_eq!(common(&shape, &shape).as_ref(), Ok(&shape));
        let dynamic = shape.clone().into_dyn().expect("memory");
        assert_eq!(common_of_two::<D, IxDyn>(&shape, &dynamic).as_ref(), Ok(&dynamic));
        assert_eq!(common_of_two::<D, Ix0>(&shape, &Ix0()).as_ref(), Ok(&shape));
        let (mut larger, joined) = with_one_more(&shape);
        assert_eq!(joined.slice().split_last(), Some((&1, shape.slice())));
        larger[0] = 9;
        assert_eq!(larger.slice().split_first(), Some((&9, shape.slice())));
        let broadcast: D::Larger = common_of_two::<D, D::Larger>(&shape, &larger).expect("compatible shapes");
        assert_eq!(broadcast, larger);
        assert_eq!(Dim(shape.clone().into_pattern()), shape);
    }
}

#[test]
fn a_type_brings_those_of_its_results() {
    for_each_type(&Types);
}

/// What ndarray's `Dimension` brings beside its calls: each line is a bound of it.
fn ask_for_bounds<D>()
where
    D: Clone + Eq + Debug + Send + Sync + Default,
    D: IndexMut<usize, Output = usize> + IntoDimension<Dim = D> + NdIndex<D> + DimensionExt,
    D: Add<Output = D> + AddAssign + for<'a> AddAssign<&'a D>,
    D: Sub<Output = D> + SubAssign + for<'a> SubAssign<&'a D>,
    D: Mul<Output = D> + MulAssign + for<'a> MulAssign<&'a D> + Mul<usize, Output = D> + MulAssign<usize>,
    D: Dimension<Pattern: IntoDimension<Dim = D> + Clone + Debug + PartialEq + Eq + Default>,
    D: Dimension<Smaller: Dimension, Larger: Dimension + RemoveAxis>,
    D: DimMax<D, Output = D> + DimMax<Ix0, Output = D> + DimMax<IxDyn, Output = IxDyn>,
    D: DimMax<D::Smaller, Output = D> + DimMax<D::Larger, Output = D::Larger>,
    D: DimAdd<D> + DimAdd<D::Smaller> + DimAdd<D::Larger>,
    D: DimAdd<Ix0, Output = D> + DimAdd<Ix1, Output = D::Larger> + DimAdd<IxDyn, Output = IxDyn>,
    Ix0: DimAdd<D, Output = D>,
    IxDyn: DimAdd<D, Output = IxDyn>,
{
}

struct Bounds;

impl OfAny for Bounds {
    fn call<D: Dimension + 'static>(&self, _: D) {
        ask_for_bounds::<D>();
    }
}

#[test]
fn a_dimension_has_each_bound_of_ndarray() {
    for_each_type(&Bounds);
}

#[test]
fn a_blanket_type_is_that_of_the_table() {
    assert_eq!(joined(&Ix0(), &IxDyn(&[2])), IxDyn(&[2]));
    assert_eq!(joined(&Ix2(2, 3), &Ix2(4, 5)), Ix4(2, 3, 4, 5));
    assert_eq!(joined(&IxDyn(&[2]), &Ix1(3)), IxDyn(&[2, 3]));
    assert_eq!(joined(&Ix6(1, 2, 3, 4, 5, 6), &Ix1(7)), IxDyn(&[1, 2, 3, 4, 5, 6, 7]));
    assert_eq!(common_of_two(&Ix1(3), &Ix2(2, 1)), Ok(Ix2(2, 3)));
    assert_eq!(shape_of_sum(&Ix3(2, 3, 4), Axis(1)), Ix2(2, 4));
    assert_eq!(inner_shape(&Ix3(2, 3, 4)), Ix1(4));
    assert_eq!(TypeId::of::<<Ix6 as Dimension>::Larger>(), TypeId::of::<IxDyn>());
}
