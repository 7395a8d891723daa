//! Faults of an axis, which come before the memory that a view of more than 4 axes takes.

use crate::allocator::failing_at;
use ndarray_layout::{Axis, ErrorKind, IxDyn, LayoutError, OwnedArray};

/// The fault of a call whose first allocation fails; that it makes none is asserted.
#[track_caller]
fn fault<T>(call: impl FnOnce() -> Result<T, LayoutError>) -> ErrorKind {
    let (fault, made) = failing_at(0, || call().err());
    assert_eq!(made, 0);
    match fault {
        Some(LayoutError::Shape(fault)) => fault.kind(),
        _ => panic!("no fault of the shape"),
    }
}

#[test]
fn the_fault_of_an_axis_comes_before_memory() {
    let mut array = OwnedArray::from_shape_vec(IxDyn(&[1, 2, 1, 2, 1]), vec![1, 2, 3, 4]).expect("an array");
    assert_eq!(fault(|| array.axis_iter(Axis(5))), ErrorKind::OutOfBounds);
    assert_eq!(fault(|| array.axis_iter_mut(Axis(5))), ErrorKind::OutOfBounds);
    assert_eq!(fault(|| array.axis_chunks_iter(Axis(5), 0)), ErrorKind::OutOfBounds);
    assert_eq!(fault(|| array.axis_chunks_iter(Axis(1), 0)), ErrorKind::Unsupported);
    assert_eq!(fault(|| array.axis_chunks_iter_mut(Axis(5), 0)), ErrorKind::OutOfBounds);
    assert_eq!(fault(|| array.axis_chunks_iter_mut(Axis(1), 0)), ErrorKind::Unsupported);
    assert_eq!(fault(|| array.index_axis_mut(Axis(5), 0)), ErrorKind::OutOfBounds);
    assert_eq!(fault(|| array.index_axis_mut(Axis(1), 2)), ErrorKind::OutOfBounds);
}
