//! Items that are lent as arrays, and those of an array that owns them: numbers, and lists that own memory.

mod axes;
mod owned;
mod parts;
mod reads;
mod rows;
mod slices;
mod totals;
mod writes;

use ndarray_layout::CanIndexCheckMode::OwnedMutable;
use ndarray_layout::{ArrayView, ArrayViewMut, ErrorKind, Ix2, LayoutError, Lengths, Strided};

/// The numbers of two rows of three, and a spare one.
const NUMBERS: [u8; 7] = [0, 1, 2, 3, 4, 5, 6];

/// The shape of the two rows.
const ROWS: Ix2 = Ix2(2, 3);

/// The numbers as two rows.
fn two_rows() -> ArrayView<'static, u8, Ix2> {
    ArrayView::from_shape(ROWS, &NUMBERS).unwrap()
}

/// Items as two rows to be written.
fn rows_mut<T>(items: &mut [T]) -> ArrayViewMut<'_, T, Ix2> {
    ArrayViewMut::from_shape(ROWS, items).unwrap()
}

/// The two rows as a view, in which no two indices alias.
fn view_of_rows() -> Strided<Ix2> {
    Strided::new(ROWS, Ix2(3, 1), 1, NUMBERS.len(), OwnedMutable).unwrap()
}

/// A list of each of the numbers.
fn lists() -> Vec<Vec<u8>> {
    NUMBERS.iter().map(|number| vec![*number]).collect()
}

/// The items of an array, of which as many come as it says.
fn items<T: Clone, D: Lengths>(array: &ArrayView<'_, T, D>) -> Vec<T> {
    let mut left = array.iter();
    assert_eq!(left.len(), array.len());
    let items: Vec<T> = left.by_ref().cloned().collect();
    assert!(left.next().is_none());
    assert_eq!((array.len(), array.is_empty()), (items.len(), items.is_empty()));
    items
}

/// The kind of the error of a call.
fn kind<T>(made: Result<T, LayoutError>) -> Option<ErrorKind> {
    match made.err()? {
        LayoutError::Shape(error) => Some(error.kind()),
        LayoutError::Memory(error) => panic!("{error}"),
    }
}
