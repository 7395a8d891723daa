//! The calls of `Dimension` and `RemoveAxis`.

use crate::back;
use ndarray_layout::compat::{
    Axis, Dim, Dimension, DimensionExt, Ix0, Ix1, Ix2, Ix3, Ix4, Ix6, IxDyn, IxDynImpl, RemoveAxis,
};

#[test]
fn a_shape_has_a_size_and_strides() {
    let shape = Ix3(3, 4, 5);
    assert_eq!((shape.ndim(), shape.size(), shape.size_checked()), (3, 60, Some(60)));
    assert_eq!((shape.default_strides(), shape.fortran_strides()), (Ix3(20, 5, 1), Ix3(1, 3, 12)));
    assert_eq!((Ix2(3, 0).default_strides(), Ix2(3, 0).fortran_strides()), (Ix2(0, 0), Ix2(0, 0)));
    assert_eq!(IxDyn(&[7, 1, 2, 3, 4]).default_strides(), IxDyn(&[24, 24, 12, 4, 1]));
    assert_eq!(IxDyn(&[usize::MAX, 2]).size_checked(), None);
    assert_eq!((shape.last_elem(), Ix0().last_elem()), (5, 0));
    assert_eq!((Ix0::NDIM, Ix3::NDIM, IxDyn::NDIM), (Some(0), Some(3), None));
}

#[test]
fn one_axis_is_the_first_and_the_last() {
    let mut line = Ix1(4);
    line.set_last_elem(6);
    assert_eq!((line, line.min_stride_axis(&Ix1(2)), line.max_stride_axis(&Ix1(2))), (Ix1(6), Axis(0), Axis(0)));
}

#[test]
fn a_list_is_read_and_written() {
    let mut shape = Ix3(3, 4, 5);
    shape.set_last_elem(6);
    shape.set_axis(Axis(0), 7);
    shape.slice_mut()[1] += 10;
    assert_eq!((shape.slice(), shape.axis(Axis(1))), (&[7, 14, 6][..], 14));
    assert_eq!(shape.as_array_view().iter().max(), Some(&14));
    shape.as_array_view_mut().invert_axis(Axis(0)).expect("an axis");
    assert!(shape.as_array_view_mut().set(&0, 1) && shape.equal(&Ix3(1, 14, 6)));
    assert_eq!([5, 6][..].axis(Axis(1)), 6);
    assert_eq!((Ix2(3, 4).into_pattern(), Ix1(3).into_pattern(), Ix0().into_pattern()), ((3, 4), 3, ()));
}

#[test]
fn indices_come_one_after_another() {
    let shape = IxDyn(&[2, 3]);
    assert_eq!((shape.first_index(), IxDyn(&[2, 0]).first_index()), (Some(IxDyn(&[0, 0])), None));
    assert_eq!(shape.next_for(IxDyn(&[0, 2])), Some(IxDyn(&[1, 0])));
    assert_eq!(shape.next_for(IxDyn(&[1, 2])), None);
    let mut index = Ix2(0, 2);
    assert!(Ix2(2, 3).next_for_f(&mut index) && index == Ix2(1, 2));
    assert!(!Ix2(2, 3).next_for_f(&mut index));
    assert_eq!(Ix2::stride_offset(&Ix2(1, 2), &Ix2(back(3), 1)), -1);
    assert_eq!(Ix2(2, 3).stride_offset_checked(&Ix2(back(3), 1), &Ix2(1, 2)), Some(-1));
    assert_eq!(Ix2(2, 3).stride_offset_checked(&Ix2(back(3), 1), &Ix2(2, 2)), None);
}

#[test]
fn strides_are_put_in_order() {
    let (shape, strides) = (Ix4(2, 3, 4, 5), Ix4(20, back(40), 5, back(1)));
    assert_eq!(strides._fastest_varying_stride_order(), Ix4(3, 2, 0, 1));
    assert_eq!((shape.min_stride_axis(&strides), shape.max_stride_axis(&strides)), (Axis(3), Axis(1)));
    assert!(Ix4::is_contiguous(&shape, &strides) && !Ix4::is_contiguous(&shape, &Ix4(20, 50, 5, 1)));
    assert!(Ix3(1, 3, 4).strides_equivalent(&Ix3(8, 4, 1), &IxDyn(&[9, 4, 1])));
    assert!(!Ix3(1, 3, 4).strides_equivalent(&Ix3(8, 4, 1), &IxDyn(&[8, 4])));
}

#[test]
fn axes_come_and_go() {
    assert_eq!(Ix2(3, 4).insert_axis(Axis(2)), Ix3(3, 4, 1));
    assert_eq!(Ix6(1, 2, 3, 4, 5, 6).insert_axis(Axis(0)), IxDyn(&[1, 1, 2, 3, 4, 5, 6]));
    assert_eq!(Ix3(3, 4, 5).remove_axis(Axis(0)), Ix2(4, 5));
    assert_eq!((IxDyn(&[3, 4]).remove_axis(Axis(1)), Ix0().try_remove_axis(Axis(4))), (IxDyn(&[3]), Ix0()));
    assert_eq!((Ix2(3, 4).into_dyn(), IxDyn(&[3, 4, 5, 6, 7]).into_dyn().ndim()), (IxDyn(&[3, 4]), 5));
    assert_eq!((Ix2::from_dimension(&Ix2(3, 4)), Ix1::from_dimension(&Ix2(3, 4))), (Some(Ix2(3, 4)), None));
    assert_eq!(IxDyn::from_dimension(&Ix2(3, 4)), Some(Dim(IxDynImpl::from(vec![3, 4]))));
    assert_eq!((Ix3::zeros(3), <IxDyn as Dimension>::zeros(5)), (Ix3(0, 0, 0), IxDyn(&[0; 5])));
}
