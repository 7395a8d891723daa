//! What shapes, indices and slices are written as.

use crate::back;
use ndarray_layout::compat::{
    Dim, IntoDimension, Ix0, Ix1, Ix2, Ix3, IxDyn, IxDynImpl, NdIndex, NewAxis, Order, Shape, ShapeArg, ShapeBuilder,
    SliceArg, SliceInfoElem, StrideShape, Strides, s,
};

#[test]
fn a_list_of_lengths_is_a_dimension() {
    assert_eq!((3.into_dimension(), ().into_dimension()), (Ix1(3), Ix0()));
    assert_eq!(((3, 4, 5).into_dimension(), [3, 4].into_dimension()), (Ix3(3, 4, 5), Ix2(3, 4)));
    assert_eq!((vec![3, 4].into_dimension(), (&[3, 4][..]).into_dimension()), (IxDyn(&[3, 4]), IxDyn(&[3, 4])));
    assert_eq!(IxDynImpl::from(vec![3]).into_dimension(), Dim(vec![3]));
    assert_eq!((Dim(Ix2(3, 4)), Dim([3; 6]).into_dimension()), (Ix2(3, 4), Dim([3; 6])));
}

#[test]
fn a_shape_has_an_order_or_strides() {
    assert!((3, 4).into_shape_with_order().is_c() && !(3, 4).f().is_c() && !(3, 4).set_f(true).is_c());
    let shape: Shape<Ix2> = (3, 4).f().set_f(false);
    assert!(shape.is_c() && shape.into_shape_with_order().raw_dim() == &Ix2(3, 4));
    let own: StrideShape<Ix2> = (3, 4).strides((back(4), 1));
    assert!(matches!(own.strides, Strides::Custom(strides) if strides == Ix2(back(4), 1)));
    let column: StrideShape<Ix2> = (3, 4).f().into();
    assert!(matches!(column.strides, Strides::F) && column.size() == 12);
    assert!(matches!(Ix2(3, 4).f().strides(Ix2(9, 9)).strides, Strides::Custom(_)));
}

#[test]
fn an_order_may_stand_beside_a_shape() {
    assert_eq!([3, 4].into_shape_and_order(), (Ix2(3, 4), None));
    assert_eq!((vec![3, 4], Order::C).into_shape_and_order(), (IxDyn(&[3, 4]), Some(Order::RowMajor)));
}

#[test]
fn an_index_lies_somewhere() {
    let (shape, strides) = (Ix2(3, 4), Ix2(4, 1));
    assert_eq!(((2, 3).index_checked(&shape, &strides), [2, 4].index_checked(&shape, &strides)), (Some(11), None));
    assert_eq!((Ix2(1, 2).index_checked(&shape, &strides), (1, 2).index_unchecked(&Ix2(9, 2))), (Some(6), 13));
    let (shape, strides) = (IxDyn(&[3, 4]), IxDyn(&[4, 1]));
    assert_eq!((&[1, 2][..]).index_checked(&shape, &strides), Some(6));
    assert_eq!((Dim([2, 0]).index_checked(&shape, &strides), [3, 0].index_checked(&shape, &strides)), (Some(8), None));
}

#[test]
fn a_slice_says_how_many_axes_it_takes_and_leaves() {
    fn counts<D: ndarray_layout::compat::Dimension>(slices: impl SliceArg<D>) -> (usize, usize, usize) {
        (slices.as_ref().len(), slices.in_ndim(), slices.out_ndim())
    }
    assert_eq!(counts::<Ix3>(s![1, NewAxis, .., NewAxis, 2..]), (5, 3, 4));
    assert_eq!(counts::<IxDyn>(s![1, ..]), (2, 2, 1));
    assert_eq!(counts::<IxDyn>(&[SliceInfoElem::NewAxis, SliceInfoElem::from(..)][..]), (2, 1, 2));
}
