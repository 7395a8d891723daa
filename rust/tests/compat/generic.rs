//! Functions over any dimension, as they stand in code over ndarray: nothing but the bounds of `compat`.

use ndarray_layout::compat::{
    Axis, DimAdd, DimMax, Dimension, IntoDimension, Ix0, Ix1, Ix2, Ix3, Ix4, Ix6, IxDyn, NdIndex, Order, RemoveAxis,
    Shape, ShapeArg, ShapeBuilder, ShapeError, SliceArg, StrideShape, Strides, co_broadcast, indices, s,
    slices_intersect,
};

/// The sizes of the inner shapes: without the first axis, the first two, and so on.
fn inner_sizes<D: Dimension>(shape: &D) -> Vec<usize> {
    let mut sizes = vec![shape.size()];
    if shape.ndim() > 0 {
        sizes.extend(inner_sizes(&shape.try_remove_axis(Axis(0)).into_dyn()));
    }
    sizes
}

/// The place of an index in column-major order.
fn place<Sh, I>(shape: Sh, index: I) -> Option<isize>
where
    Sh: ShapeBuilder,
    I: NdIndex<Sh::Dim>,
{
    let shape = shape.f();
    let dim = shape.raw_dim();
    index.index_checked(dim, &dim.fortran_strides())
}

/// The least shape that has all indices of a list, or none.
fn hull<D: Dimension>(list: &[D]) -> Option<D> {
    let mut hull = D::zeros(list.first()?.ndim());
    for index in list {
        for axis in 0..hull.ndim() {
            hull[axis] = hull[axis].max(index[axis] + 1);
        }
    }
    Some(hull)
}

/// The shape of the sums along an axis, with the axis kept as one of length 1.
fn sums_kept<D: RemoveAxis>(shape: &D, axis: Axis) -> <D::Smaller as Dimension>::Larger {
    shape.remove_axis(axis).insert_axis(axis)
}

/// The shape of all sums of an item of one array and an item of another, by broadcast.
fn table<A, B>(one: &A, other: &B) -> Result<<A::Larger as DimMax<B>>::Output, ShapeError>
where
    A: Dimension<Larger: DimMax<B>>,
    B: Dimension,
{
    co_broadcast(&one.insert_axis(Axis(one.ndim())), other)
}

/// Whether each index comes back from its pattern, and is at most the last.
fn agrees<D: Dimension>(shape: D) -> bool {
    let mut last = shape.clone();
    for len in last.slice_mut() {
        *len -= 1;
    }
    indices(shape).into_iter().all(|pattern| {
        let mut room = last.clone();
        room -= &pattern.clone().into_dimension();
        room.into_pattern().into_dimension().slice().iter().all(|&coordinate| coordinate < 10)
    })
}

fn axes_together<A: Dimension + DimAdd<B>, B: Dimension>() -> Option<usize> {
    <A as DimAdd<B>>::Output::NDIM
}

/// A shape in column-major order, by strides of its own.
fn by_columns<D: Dimension>(shape: D) -> (bool, StrideShape<D>) {
    let strides = shape.fortran_strides();
    let shape: Shape<D> = shape.f();
    (shape.is_c(), shape.set_f(false).strides(strides))
}

fn order_of<T: IntoDimension>(shape: T) -> (usize, Option<Order>) {
    let (dim, order) = (shape, Order::F).into_shape_and_order();
    (dim.into_shape_and_order().0.ndim(), order)
}

/// Whether a slice picks anything, and how many axes it leaves.
fn picks<D: Dimension, I: SliceArg<D>>(shape: &D, slices: I) -> (bool, usize) {
    let lent: &I = &slices;
    (slices_intersect(shape, lent, &slices), lent.out_ndim())
}

#[test]
fn shapes_and_slices_of_any_type_are_handed_on() {
    let (is_c, shape) = by_columns(Ix2(4, 5));
    assert!(!is_c && matches!(shape.strides, Strides::Custom(strides) if strides == Ix2(1, 4)));
    let (is_c, shape) = by_columns(IxDyn(&[4, 5]));
    assert!(!is_c && shape.raw_dim() == &IxDyn(&[4, 5]));
    assert_eq!((order_of(Ix2(4, 5)), order_of(vec![4, 5, 6])), ((2, Some(Order::ColumnMajor)), (3, Some(Order::F))));
    assert_eq!((picks(&Ix2(4, 5), s![1, ..]), picks(&IxDyn(&[4, 5]), &s![.., 3..3])), ((true, 1), (false, 2)));
}

#[test]
fn generic_code_over_ndarray_compiles_and_runs() {
    assert_eq!(inner_sizes(&Ix4(2, 3, 4, 5)), [120, 60, 20, 5, 1]);
    assert_eq!(inner_sizes(&Ix0()), [1]);
    assert_eq!((place((3, 4), (1, 2)), place(vec![3, 4], [3, 0])), (Some(7), None));
    assert_eq!(hull(&[Ix2(4, 0), Ix2(1, 6)]), Some(Ix2(5, 7)));
    assert_eq!(hull::<IxDyn>(&[]), None);
    assert_eq!(sums_kept(&Ix3(2, 3, 4), Axis(1)), Ix3(2, 1, 4));
    assert_eq!(table(&Ix1(3), &Ix1(4)), Ok(Ix2(3, 4)));
    assert_eq!(table(&Ix6(1, 1, 1, 1, 1, 2), &IxDyn(&[5])), Ok(IxDyn(&[1, 1, 1, 1, 1, 2, 5])));
    assert!(agrees(Ix3(2, 3, 4)) && agrees(IxDyn(&[3, 2])) && agrees(Ix0()));
    assert_eq!((axes_together::<Ix2, Ix4>(), axes_together::<Ix4, Ix3>()), (Some(6), None));
}
