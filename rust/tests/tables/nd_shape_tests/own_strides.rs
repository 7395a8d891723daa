// Made by `rust/erase` of `crates/nd_shape_tests/src/own_strides.rt`: edit that.
//! All shapes of up to three axes with lengths from 0 to 3: by their own strides they are accepted over the same data
//! as along these strides where they are given.

use crate::test_tables::{AtType, List, at_each_type, fault_of, made};
use ::ndarray_layout::memory::AllocError;
use ::ndarray_layout::nd_dim::{Lengths, default_strides, fortran_strides};
use ::ndarray_layout::nd_shape::{
    CanIndexCheckMode, can_index_slice, can_index_slice_not_custom, size_of_shape_checked,
};
use CanIndexCheckMode::OwnedMutable;

/// Whether a shape is accepted along these strides over the same data as by them: over up to 28 elements, owned.
fn is_accepted_along<D: Lengths>(dim: &D, strides: Result<D, AllocError>) -> bool {
    let Ok(strides) = strides else {
        return false;
    };
    for len in 0..29 {
        let along = can_index_slice(1, len, dim, &strides, OwnedMutable);
        if fault_of(along) != fault_of(can_index_slice_not_custom(len, dim)) {
            return false;
        }
    }
    true
}

/// A shape whose own strides are asked for, in both orders.
#[derive(Clone, Copy)]
struct OwnStrides(List);

impl AtType for OwnStrides {
    fn at<D: Lengths>(self) -> Option<bool> {
        let dim = made::<D>(self.0.as_slice())?;
        Some(
            size_of_shape_checked(&dim).is_ok()
                && is_accepted_along(&dim, default_strides(&dim))
                && is_accepted_along(&dim, fortran_strides(&dim)),
        )
    }
}

/// Whether a shape is accepted so at each of its types.
fn is_accepted(lens: &[usize]) -> bool {
    match List::of(lens) {
        Some(list) => at_each_type(lens.len(), OwnStrides(list)) == Some(true),
        None => false,
    }
}

// The shapes of no axes, the first one, the first two and all three.
#[test]
fn shapes_along_their_own_strides() {
    for a in 0..4 {
        for b in 0..4 {
            for c in 0..4 {
                for count in 0..4 {
                    assert!(is_accepted(&[a, b, c][..count]));
                }
            }
        }
    }
}
