// Made by `rust/erase` of `crates/nd_shape_tests/src/values.rt`: edit that.
//! Dimensions of given types, and values of one list.

use crate::test_tables::hash_of;
use ::ndarray_layout::memory::AllocError;
use ::ndarray_layout::memory::prelude::FallibleSlice;
use ::ndarray_layout::nd_base::IxDynImpl;
use ::ndarray_layout::nd_dim::{
    Axis, Dimension, IntoDimension, Ix2, IxDyn, Lengths, RemoveAxis, new_ix2, new_ix3, new_ix6, new_ixdyn, signed,
    unsigned,
};
use core::hash::Hash;

/// Whether a call made a value of these lengths.
fn has<D: Lengths>(made: Result<D, AllocError>, lens: &[usize]) -> bool {
    match made {
        Ok(made) => made.slice() == lens,
        Err(_) => false,
    }
}

/// Whether two values are one, and have one hash.
fn are_one<T: Eq + Hash + Sized>(dim: Result<T, AllocError>, other: Result<T, AllocError>) -> bool {
    match (dim, other) {
        (Ok(dim), Ok(other)) => dim == other && hash_of(&dim) == hash_of(&other),
        _ => false,
    }
}

/// Whether a vector's items make the dimension that a slice of them makes, with one hash.
fn comes_of_vector(lens: &[usize]) -> bool {
    match lens.fallible_to_vec() {
        Ok(items) => are_one(items.into_dimension(), new_ixdyn(lens)),
        Err(_) => false,
    }
}

/// Whether a dimension of another list is none of two axes.
fn is_none_of_two(lens: &[usize]) -> bool {
    match new_ixdyn(lens) {
        Ok(other) => matches!(Ix2::from_dimension(&other), Ok(None)),
        Err(_) => false,
    }
}

/// Whether the default of any number of axes is a lone 0, which a new axis may precede.
fn is_lone_zero() -> bool {
    match IxDyn::default_in() {
        Ok(dim) => dim.slice() == [0].as_slice() && has(dim.insert_axis(Axis(0)), &[1, 0]),
        Err(_) => false,
    }
}

#[test]
fn r2_rows() {
    let (three, six) = (new_ix3(2, 3, 4), new_ix6(1, 2, 3, 4, 5, 6));
    assert!(has(three.insert_axis(Axis(1)), &[2, 1, 3, 4]));
    assert!(has(three.remove_axis(Axis(0)), &[3, 4]));
    assert!(has(six.insert_axis(Axis(6)), &[1, 2, 3, 4, 5, 6, 1]));
    assert!(is_none_of_two(&[3, 4, 5]) && is_lone_zero());
    assert!(comes_of_vector(&[3, 4, 5]) && comes_of_vector(&[1, 2, 3, 4, 5]));
    let sum = new_ix2(3, 5) + new_ix2(1, 1);
    assert!(sum == new_ix2(4, 6) && sum * 2 == new_ix2(8, 12));
    assert!(signed(18446744073709551612) == -4 && unsigned(-4) == 18446744073709551612);
}

/// Whether the lengths that are left without an axis are those that a slice makes, with one hash.
fn leaves(lens: &[usize], axis: usize, narrower: &[usize]) -> bool {
    match IxDynImpl::copy_from(lens) {
        Ok(list) => axis < list.as_slice().len() && are_one(list.remove(axis), IxDynImpl::copy_from(narrower)),
        Err(_) => false,
    }
}

#[test]
fn r9_rows() {
    assert!(leaves(&[1, 2, 3, 4, 5], 2, &[1, 2, 4, 5]));
}
