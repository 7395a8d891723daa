//! Lists of lengths, strides as they are kept, and calls of slices.

use super::values::hash_of;
use ndarray_layout::{
    Axis, Dimension, IntoDimension, Ix2, IxDyn, IxDynImpl, axis_of, has_axis, index_offset, is_index, is_multiple,
    set_axis_of, signed, stride_offset, stride_offset_checked, unsigned,
};

// Of one list, a slice and a vector make one value, with one hash; and so do the lengths that a removed axis leaves.
#[test]
fn lists_of_slices_and_vectors() {
    for lens in [&[][..], &[3, 4, 5], &[1, 2, 3, 4, 5]] {
        let (list, other) = (IxDynImpl::from_vec(lens.to_vec()).unwrap(), IxDynImpl::copy_from(lens).unwrap());
        assert_eq!((&list, hash_of(&list)), (&other, hash_of(&other)));
        let (dim, other) = (lens.to_vec().into_dimension().unwrap(), IxDyn(lens));
        assert_eq!((&dim, hash_of(&dim)), (&other, hash_of(&other)));
    }
    let none = IxDynImpl::copy_from(&[]).unwrap();
    assert_eq!((none.remove(7).unwrap(), hash_of(&none.remove(7).unwrap())), (none.clone(), hash_of(&none)));
}

#[test]
fn written_lists() {
    let mut list = IxDynImpl::copy_from(&[3, 3, 5]).unwrap();
    list[1] = 7;
    list.as_mut_slice()[2] = 9;
    assert!((&list).into_iter().eq(&[3, 7, 9]) && list[1] == 7);
    assert_eq!(list.into_dimension().unwrap(), IxDyn(&[3, 7, 9]));
}

// A stride as it is kept, and what it means.
#[test]
fn strides_as_they_are_kept() {
    for (kept, meant) in [(0, 0), (9223372036854775807, isize::MAX), (9223372036854775808, isize::MIN)] {
        assert_eq!((signed(kept), unsigned(meant)), (meant, kept));
    }
}

// Beside the shape 2, 3 with the strides -3, 1.
#[test]
fn offsets_of_coordinates() {
    let strides = [unsigned(-3), 1];
    assert_eq!(stride_offset_checked(&[2, 3], &strides, &[1, 2]), Some(-1));
    assert_eq!(stride_offset_checked(&[2, 3], &strides, &[1, 3]), None);
    assert_eq!(stride_offset_checked(&[2, 3], &strides, &[1]), None);
    assert!(is_index(&[2, 3], &[1, 2]) && !is_index(&[2, 3], &[1]));
    assert_eq!(index_offset(&[1, 2], &strides), -1);
    assert_eq!(Ix2::stride_offset(&Ix2(1, 2), &Ix2(unsigned(-3), 1)), -1);
    assert_eq!(stride_offset(3, unsigned(-4)), -12);
    assert_eq!(stride_offset(1, unsigned(isize::MIN)), isize::MIN);
}

// In whole numbers: 2^64 isn't 0.
#[test]
fn multiples() {
    assert!(is_multiple(unsigned(-6), 2, unsigned(-3)));
    assert!(!is_multiple(6, 2, unsigned(-3)));
    assert!(is_multiple(0, 0, unsigned(isize::MIN)));
    assert!(!is_multiple(0, 1 << 62, 4));
}

#[test]
fn axes_of_slices() {
    let mut lens = [2, 3, 4];
    set_axis_of(&mut lens, Axis(1), 7);
    assert_eq!(lens, [2, 7, 4]);
    assert_eq!((axis_of(&lens, Axis(2)), Axis(2).index()), (4, 2));
    assert!(has_axis(&lens, Axis(2)) && !has_axis(&lens, Axis(3)));
}
