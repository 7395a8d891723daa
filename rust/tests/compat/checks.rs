//! Which layouts index data.

use crate::{back, fault};
use ndarray_layout::compat::CanIndexCheckMode::{OwnedMutable, ReadOnly};
use ndarray_layout::compat::{
    Dimension, ErrorKind, IntoDimension, Ix0, Ix1, Ix2, Ix3, IxDyn, ShapeError, Strides, can_index_slice,
    can_index_slice_not_custom, can_index_slice_with_strides, dim_stride_overlap, is_layout_c, is_layout_f,
    max_abs_offset_check_overflow, offset_from_low_addr_ptr_to_logical_ptr, size_of_shape_checked,
    strides_non_negative,
};

/// Whether a layout may index so many items of two bytes that are owned.
fn owned<D: Dimension>(len: usize, dim: D, strides: D) -> Result<(), ShapeError> {
    can_index_slice(&vec![0_u16; len], &dim, &strides, OwnedMutable)
}

#[test]
fn data_has_the_length_that_a_layout_asks_for() {
    assert_eq!(owned(1, Ix0(), Ix0()), Ok(()));
    assert_eq!(owned(10, Ix1(4), Ix1(back(3))), Ok(()));
    assert_eq!(fault(owned(9, Ix1(4), Ix1(back(3)))), ErrorKind::OutOfBounds);
    assert_eq!(owned(17, Ix2(3, 5), Ix2(6, 1)), Ok(()));
    assert_eq!(fault(owned(16, Ix2(3, 5), Ix2(6, 1))), ErrorKind::OutOfBounds);
    assert_eq!(owned(8, Ix2(0, 5), Ix2(6, 2)), Ok(()));
    assert_eq!(fault(owned(7, Ix2(0, 5), Ix2(6, 2))), ErrorKind::OutOfBounds);
    assert_eq!(owned(24, Ix3(2, 3, 4), Ix3(1, 2, 6)), Ok(()));
    assert_eq!(fault(owned(24, IxDyn(&[2, 3]), IxDyn(&[1]))), ErrorKind::IncompatibleLayout);
}

#[test]
fn owned_data_has_each_element_once() {
    let (shape, strides) = ((3, 4).into_dimension(), (2, 1).into_dimension());
    assert_eq!(fault(can_index_slice(&[0; 12], &shape, &strides, OwnedMutable)), ErrorKind::Unsupported);
    assert_eq!(can_index_slice(&[0; 8], &shape, &strides, ReadOnly), Ok(()));
    assert!(dim_stride_overlap(&shape, &strides) && dim_stride_overlap(&shape, &Ix2(0, 1)));
    assert!(!dim_stride_overlap(&shape, &Ix2(back(4), 1)) && !dim_stride_overlap(&Ix2(1, 4), &Ix2(0, 1)));
}

#[test]
fn the_size_of_an_element_counts() {
    let most = isize::MAX as usize;
    assert_eq!(max_abs_offset_check_overflow::<u8, _>(&Ix2(2, 3), &Ix2(back(10), 4)), Ok(18));
    assert_eq!(max_abs_offset_check_overflow::<u8, _>(&Ix1(2), &Ix1(most)), Ok(most));
    assert_eq!(fault(max_abs_offset_check_overflow::<u16, _>(&Ix1(2), &Ix1(most))), ErrorKind::Overflow);
    assert_eq!(max_abs_offset_check_overflow::<(), _>(&Ix1(2), &Ix1(most)), Ok(most));
    assert_eq!(fault(can_index_slice(&[0_u16; 2], &Ix1(2), &Ix1(most), ReadOnly)), ErrorKind::Overflow);
    assert_eq!(fault(can_index_slice(&[0_u8; 2], &Ix1(2), &Ix1(most), ReadOnly)), ErrorKind::OutOfBounds);
    assert_eq!(can_index_slice(&[(); 5], &Ix1(5), &Ix1(1), OwnedMutable), Ok(()));
    assert_eq!(fault(can_index_slice(&[(); 4], &Ix1(5), &Ix1(1), OwnedMutable)), ErrorKind::OutOfBounds);
}

#[test]
fn a_shape_with_an_order_asks_for_its_size() {
    assert_eq!(size_of_shape_checked(&Ix3(4, 0, 6)), Ok(0));
    assert_eq!(fault(size_of_shape_checked(&Ix2(1 << 40, 1 << 40))), ErrorKind::Overflow);
    assert_eq!(can_index_slice_not_custom(12, &Ix2(3, 4)), Ok(()));
    assert_eq!(fault(can_index_slice_not_custom(11, &Ix2(3, 4))), ErrorKind::OutOfBounds);
    let with = |strides, len| can_index_slice_with_strides(&vec![0; len], &Ix2(3, 4), &strides, OwnedMutable);
    assert_eq!((with(Strides::C, 12), with(Strides::F, 12)), (Ok(()), Ok(())));
    assert_eq!(with(Strides::Custom(Ix2(1, 3)), 12), Ok(()));
    assert_eq!(fault(with(Strides::Custom(Ix2(1, 3)), 11)), ErrorKind::OutOfBounds);
    assert_eq!(fault(with(Strides::Custom(Ix2(1, 2)), 12)), ErrorKind::Unsupported);
    let shape = IxDyn(&[5, 1, 2, 3]);
    for strides in [shape.default_strides(), shape.fortran_strides()] {
        assert_eq!(can_index_slice(&[0; 30], &shape, &strides, OwnedMutable), Ok(()));
    }
}

#[test]
fn strides_have_signs() {
    assert_eq!(strides_non_negative(&Ix3(0, 1, 2)), Ok(()));
    assert_eq!(fault(strides_non_negative(&Ix3(0, back(1), 2))), ErrorKind::Unsupported);
    assert_eq!(offset_from_low_addr_ptr_to_logical_ptr(&Ix3(3, 1, 4), &Ix3(back(4), back(9), back(1))), 11);
    assert_eq!(offset_from_low_addr_ptr_to_logical_ptr(&Ix2(3, 4), &Ix2(1, 3)), 0);
}

#[test]
fn a_layout_has_an_order() {
    let orders = |dim: IxDyn, strides: IxDyn| (is_layout_c(&dim, &strides), is_layout_f(&dim, &strides));
    assert_eq!(orders(IxDyn(&[2, 3, 4]), IxDyn(&[12, 4, 1])), (true, false));
    assert_eq!(orders(IxDyn(&[2, 3, 4]), IxDyn(&[1, 2, 6])), (false, true));
    assert_eq!(orders(IxDyn(&[1, 7, 1]), IxDyn(&[3, 1, 5])), (true, true));
    assert_eq!(orders(IxDyn(&[2, 0]), IxDyn(&[9, 9])), (true, true));
    assert_eq!(orders(IxDyn(&[4]), IxDyn(&[back(1)])), (false, false));
    assert_eq!((is_layout_c(&Ix1(4), &Ix1(1)), is_layout_f(&Ix1(4), &Ix1(2))), (true, false));
}
