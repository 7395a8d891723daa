//! Parts of an array that are lent at once, each with a shape of its own: of numbers, and of lists that own memory.

#[path = "../refused/allocator.rs"]
mod allocator;
mod axes;
mod iterated;
mod lent;
mod memory;
mod model;
#[allow(dead_code)]
#[path = "../random/numbers.rs"]
mod numbers;
mod own_items;
mod pairs;
mod random;
mod refused;
mod iterated_at_random;
mod sliced;
mod steps;
mod threads;

use ndarray_layout::{ArrayViewMut, ErrorKind, Ix2, Ix3, LayoutError};

/// The numbers of two rows of three, and a spare one.
const NUMBERS: [u8; 7] = [0, 1, 2, 3, 4, 5, 6];

/// Items as two rows of three.
fn rows_mut<T>(items: &mut [T]) -> ArrayViewMut<'_, T, Ix2> {
    ArrayViewMut::from_shape(Ix2(2, 3), items).expect("room for six items")
}

/// Items as a picture of two rows of three pixels, with three colours side by side.
fn picture<T>(items: &mut [T]) -> ArrayViewMut<'_, T, Ix3> {
    ArrayViewMut::from_shape(Ix3(2, 3, 3), items).expect("room for eighteen items")
}

/// A list of each of the numbers.
fn lists() -> Vec<Vec<u8>> {
    NUMBERS.iter().map(|number| vec![*number]).collect()
}

/// The kind of the error of a call.
fn kind<T>(made: Result<T, LayoutError>) -> Option<ErrorKind> {
    match made.err()? {
        LayoutError::Shape(error) => Some(error.kind()),
        LayoutError::Memory(error) => panic!("{error}"),
    }
}
