//! What ndarray's users expect of arrays: rows at numbers and at texts, and random layouts beside a plain model.

#[path = "../refused/allocator.rs"]
mod allocator;
mod along;
mod any_order;
mod blocks;
mod both_ends;
mod chunks;
mod folded;
mod indexing;
mod iterated;
mod joined;
mod layouts;
mod memory;
mod nearest;
#[allow(dead_code)]
#[path = "../random/numbers.rs"]
mod numbers;
mod places;
mod reads;
mod rows;
mod tiles;
mod writes;

use ndarray_layout::{ArrayView, ArrayViewMut, ErrorKind, Ix2, LayoutError, OwnedArray};

/// The shape of two rows of three.
const ROWS: Ix2 = Ix2(2, 3);

/// The numbers of two rows of three, and a spare one.
const NUMBERS: [u8; 7] = [0, 1, 2, 3, 4, 5, 6];

/// The numbers as texts, which own memory.
fn texts() -> Vec<String> {
    NUMBERS.iter().map(u8::to_string).collect()
}

/// Items as two rows.
fn rows<T>(items: &[T]) -> ArrayView<'_, T, Ix2> {
    ArrayView::from_shape(ROWS, items).unwrap()
}

/// Items as two rows to be written.
fn rows_mut<T>(items: &mut [T]) -> ArrayViewMut<'_, T, Ix2> {
    ArrayViewMut::from_shape(ROWS, items).unwrap()
}

/// Two rows that own their items.
fn owned<T>(items: Vec<T>) -> OwnedArray<T, Ix2> {
    match OwnedArray::from_shape_vec(ROWS, items) {
        Ok(array) => array,
        Err((error, _)) => panic!("{error}"),
    }
}

/// The kind of the error of a call.
fn kind<T, E: Into<LayoutError>>(made: Result<T, E>) -> Option<ErrorKind> {
    match made.err()?.into() {
        LayoutError::Shape(error) => Some(error.kind()),
        LayoutError::Memory(error) => panic!("{error}"),
    }
}
