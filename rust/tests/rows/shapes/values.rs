//! Values and what they are made of: axes, orders, faults, and dimensions of tuples and arrays.

use ErrorKind::{IncompatibleLayout, IncompatibleShape, OutOfBounds, Overflow, RangeLimited, Unsupported};
use ndarray_layout::memory::{AllocError, AllocFailed};
use ndarray_layout::{
    Axis, Convert, Dim, Dimension, ErrorKind, FixedCount, IntoDimension, Ix0, Ix1, Ix2, Ix3, Ix4, Ix5, Ix6, IxDyn,
    LayoutError, Lengths, Order, ShapeArg, from_kind, new_dim,
};
use std::cmp::Ordering;
use std::fmt::Debug;
use std::hash::{DefaultHasher, Hash, Hasher};

pub fn hash_of(value: &impl Hash) -> u64 {
    let mut hasher = DefaultHasher::new();
    value.hash(&mut hasher);
    hasher.finish()
}

/// Asserts that each value equals itself and none of the others.
pub fn assert_distinct<T: PartialEq + Debug>(values: &[T]) {
    for (place, value) in values.iter().enumerate() {
        for (other_place, other) in values.iter().enumerate() {
            assert_eq!(value == other, place == other_place, "{value:?} {other:?}");
        }
    }
}

#[test]
fn kinds_of_faults() {
    let kinds = [IncompatibleShape, IncompatibleLayout, RangeLimited, OutOfBounds, Unsupported, Overflow];
    assert_distinct(&kinds);
    assert_distinct(&kinds.map(from_kind));
}

#[test]
fn axes_and_orders_that_differ() {
    assert_distinct(&[Order::RowMajor, Order::ColumnMajor]);
    assert_distinct(&[Axis(0), Axis(1), Axis(2)]);
    assert_eq!(hash_of(&Axis(2)), hash_of(&Axis(2)));
}

#[test]
fn axes_in_order() {
    let rows = [
        (Axis(0), Axis(1), Ordering::Less),
        (Axis(7), Axis(2), Ordering::Greater),
        (Axis(3), Axis(3), Ordering::Equal),
    ];
    for (axis, other, order) in rows {
        assert_eq!((axis.cmp(&other), axis.partial_cmp(&other)), (order, Some(order)));
        assert_eq!((axis < other, axis <= other), (order.is_lt(), order.is_le()));
    }
}

#[test]
fn orders() {
    assert_eq!((Order::C, Order::F), (Order::RowMajor, Order::ColumnMajor));
    assert!(Order::C.is_row_major() && !Order::C.is_column_major());
    assert_eq!((Order::row_major(false), Order::column_major(false)), (Order::F, Order::C));
    assert_eq!(Order::F.transpose(), Order::C);
}

/// An error that `?` makes of one of memory.
fn failed(error: impl Into<AllocError>) -> Result<(), LayoutError> {
    Err(error.into())?
}

#[test]
fn faults_of_layouts() {
    let memory = LayoutError::Memory(AllocError);
    assert_eq!(LayoutError::from(from_kind(Overflow)), LayoutError::Shape(from_kind(Overflow)));
    assert_eq!(LayoutError::from(AllocError), memory);
    assert_eq!(LayoutError::from(AllocFailed { value: 7 }), memory);
    assert_eq!(failed(AllocError), Err(memory.clone()));
    assert_eq!(failed(AllocFailed { value: 7 }), Err(memory));
}

// Writes by the axis and in the list. Where lengths are equal, only the one of that axis is written.
#[test]
fn written_lengths() {
    let (mut first, mut second, mut third) = (Ix2(3, 3), Ix2(3, 3), Ix2(3, 3));
    first[0] = 7;
    second[1] = 7;
    third.slice_mut()[0] = 5;
    assert_eq!([first, second, third], [Ix2(7, 3), Ix2(3, 7), Ix2(5, 3)]);
    assert!(second[1] == 7 && !first.equal(&second));
    assert_eq!((Ix1::NDIM, IxDyn::NDIM, Ix3::default()), (Some(1), None, Ix3(0, 0, 0)));
}

#[test]
fn dimensions_as_patterns() {
    assert_eq!(Ix0().into_pattern(), ());
    assert_eq!(Ix1(2).into_pattern(), 2);
    assert_eq!(Ix2(2, 3).into_pattern(), (2, 3));
    assert_eq!(Ix3(2, 3, 4).into_pattern(), (2, 3, 4));
    assert_eq!(Ix4(2, 3, 4, 5).into_pattern(), (2, 3, 4, 5));
    assert_eq!(Ix5(2, 3, 4, 5, 6).into_pattern(), (2, 3, 4, 5, 6));
    assert_eq!(Ix6(2, 3, 4, 5, 6, 7).into_pattern(), (2, 3, 4, 5, 6, 7));
}

/// Asserts the lengths of the dimension that a pattern makes, and an array.
fn assert_made<T: IntoDimension<Dim = Dim<[usize; N]>>, const N: usize>(pattern: T, array: [usize; N])
where
    [usize; N]: IntoDimension,
    Dim<[usize; N]>: Lengths,
{
    assert_eq!(new_dim(pattern).unwrap().slice(), array);
    assert_eq!(array.into_dimension().unwrap().slice(), array);
}

#[test]
fn dimensions_of_patterns() {
    assert_made((), []);
    assert_made(2, [2]);
    assert_made((2,), [2]);
    assert_made((2, 3), [2, 3]);
    assert_made((2, 3, 4), [2, 3, 4]);
    assert_made((2, 3, 4, 5), [2, 3, 4, 5]);
    assert_made((2, 3, 4, 5, 6), [2, 3, 4, 5, 6]);
    assert_made((2, 3, 4, 5, 6, 7), [2, 3, 4, 5, 6, 7]);
}

// A shape alone, and with an order.
#[test]
fn shapes_with_orders() {
    assert_eq!((2, 3).into_shape_and_order(), Ok((Ix2(2, 3), None)));
    assert_eq!(([2, 3, 4], Order::F).into_shape_and_order(), Ok((Ix3(2, 3, 4), Some(Order::F))));
}

#[test]
fn coordinates_as_tuples() {
    assert_eq!([].convert(), ());
    assert_eq!([4].convert(), (4,));
    assert_eq!([4, 5].convert(), (4, 5));
    assert_eq!([4, 5, 6].convert(), (4, 5, 6));
    assert_eq!([4, 5, 6, 7].convert(), (4, 5, 6, 7));
    assert_eq!([4, 5, 6, 7, 8].convert(), (4, 5, 6, 7, 8));
    assert_eq!([4, 5, 6, 7, 8, 9].convert(), (4, 5, 6, 7, 8, 9));
}
