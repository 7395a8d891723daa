//! Calls of which each allocation fails in turn: they say so, or panic where they have no error to return.

use crate::allocator::failing_at;
use crate::layouts::Layout;
use ndarray_layout::{ArrayViewMut, Axis, Ix2, IxDyn, LayoutError, OwnedArray, ShapeBuilder, StrideShape, Strides};
use std::panic::{AssertUnwindSafe, catch_unwind};

/// Ten numbers along five axes, so that a shape takes memory, with the rows and the columns turned.
fn layout() -> Layout {
    Layout { shape: vec![2, 1, 1, 1, 5], strides: vec![1, 0, 0, 0, 2], start: 0, count: 10 }
}

/// How often a call fails for memory before none of its allocations does.
fn failures<T>(mut call: impl FnMut() -> Result<T, LayoutError>) -> usize {
    let fails = |failing: &usize| match failing_at(*failing, &mut call) {
        (Err(LayoutError::Memory(_)), made) => made == failing + 1,
        _ => false,
    };
    let count = (0..).take_while(fails).count();
    assert!(call().is_ok());
    count
}

#[test]
fn a_call_that_makes_a_list_says_that_memory_ran_out() {
    let numbers: Vec<usize> = (0..10).collect();
    let array = layout().array(&numbers);
    assert_eq!(failures(|| Ok(array.to_vec()?)), 1);
    // the items, and the lengths and the strides of five axes
    assert_eq!(failures(|| Ok(array.map(|number| number + 1)?)), 3);
    assert_eq!(failures(|| Ok(array.to_array()?)), 3);
}

#[test]
fn a_call_that_lends_rows_says_that_memory_ran_out() {
    let mut numbers: Vec<usize> = (0..10).collect();
    let mut backwards = layout();
    (backwards.shape, backwards.strides, backwards.start) = (vec![5, 2], vec![-2, 1], 8);
    let mut array = backwards.array_mut(&mut numbers);
    assert_eq!(failures(|| array.axis_iter_mut(Axis(1)).map(|columns| columns.len())), 0);
    assert_eq!(panics(|| array.rows_mut().len()), 0);
    let mut array = layout().array_mut(&mut numbers);
    // the lengths and the strides of five axes
    assert_eq!(failures(|| array.axis_iter_mut(Axis(1)).map(|columns| columns.len())), 2);
    assert_eq!(failures(|| array.axis_chunks_iter_mut(Axis(1), 1).map(|columns| columns.len())), 2);
    assert_eq!(panics(|| array.rows_mut().len()), 2);
    assert!(failing_at(usize::MAX, || array.lanes_mut(Axis(5)).is_err()).0);
}

/// How often a call panics for memory before none of its allocations fails.
fn panics<T>(mut call: impl FnMut() -> T) -> usize {
    let panics = |failing: &usize| failing_at(*failing, || catch_unwind(AssertUnwindSafe(&mut call)).is_err()).0;
    (0..).take_while(panics).count()
}

#[test]
fn an_iterator_panics_where_memory_runs_out() {
    let mut numbers: Vec<usize> = (0..10).collect();
    let mut small = layout();
    (small.shape, small.strides) = (vec![2, 5], vec![1, 2]);
    let array = small.array(&numbers);
    assert_eq!((panics(|| array.view()), panics(|| (&array).into_iter().count())), (0, 0));
    let five = layout().array(&numbers);
    assert_eq!((panics(|| five.view()), panics(|| (&five).into_iter().count())), (2, 2));
    let mut array = small.array_mut(&mut numbers);
    assert_eq!(panics(|| array.iter_mut().count()), 0);
    let mut whole = [0; 6];
    let mut array = ArrayViewMut::from_shape(Ix2(2, 3), &mut whole).unwrap();
    assert_eq!(panics(|| array.iter_mut().count()), 0);
}

#[test]
fn items_are_handed_out_in_another_list_or_in_their_own() {
    for (strides, expected) in [(Strides::C, 0), (Strides::F, 2)] {
        let make = || {
            let shape = StrideShape { dim: Ix2(2, 3), strides };
            OwnedArray::from_shape_vec(shape, (0..6).collect()).unwrap_or_else(|_| panic!("six items"))
        };
        let failing = |failing: &usize| {
            let array = make();
            failing_at(*failing, || catch_unwind(AssertUnwindSafe(|| array.into_iter().count())).is_err()).0
        };
        assert_eq!((0..).take_while(failing).count(), expected);
    }
}

#[test]
fn arrays_of_copies_and_of_a_closure_panic_where_memory_runs_out() {
    assert_eq!(panics(|| OwnedArray::from_elem((2, 3), 7_u8)), 1);
    assert_eq!(panics(|| OwnedArray::from_shape_fn((2, 3), |(row, column)| row + column)), 1);
    // the list, and copies of five lengths: of the shape, of its strides, and of the indices
    let five = || IxDyn(&[2, 1, 1, 1, 5]);
    assert!(panics(|| OwnedArray::from_elem(five(), 7_u8)) > 1);
    assert!(panics(|| OwnedArray::from_shape_fn(five(), |index| index)) > 10);
    let array = layout().array(&NUMBERS).to_owned();
    assert_eq!((panics(|| array.to_owned()), array.into_stored()), (3, vec![0, 2, 4, 6, 8, 1, 3, 5, 7, 9]));
}

/// The numbers of `layout`.
const NUMBERS: [usize; 10] = [0, 1, 2, 3, 4, 5, 6, 7, 8, 9];

#[test]
fn an_array_of_more_items_than_an_isize_counts_is_not_made() {
    let is_made = |call: &dyn Fn() -> usize| catch_unwind(AssertUnwindSafe(call)).is_ok();
    assert!(!is_made(&|| OwnedArray::from_elem((usize::MAX, 2), ()).len()));
    assert!(!is_made(&|| OwnedArray::from_shape_fn((1 << 62, 2), |_| 0_u8).len()));
    assert!(!is_made(&|| OwnedArray::<(), Ix2>::from(vec![[(); usize::MAX]; 2]).len()));
    assert!(is_made(&|| OwnedArray::from_elem((1 << 62, 0), 0_u8).len()));
    assert!(is_made(&|| OwnedArray::from_shape_fn((0, 3).f().unwrap(), |_| 0_u8).len()));
}
