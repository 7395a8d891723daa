//! Items by an index, in brackets or not, and what a wrong one is told.

use crate::layouts::{Layout, rounds};
use crate::{NUMBERS, owned, rows, rows_mut, texts};
use ndarray_layout::IxDyn;
use std::panic::{AssertUnwindSafe, catch_unwind};

#[test]
fn an_item_is_written_by_its_index() {
    let mut numbers = NUMBERS;
    let mut array = rows_mut(&mut numbers);
    array[(1, 0)] += 30;
    array[[0, 2]] = 20;
    *array.get_mut(&(0, 0)).unwrap() = 10;
    assert!(array.get_mut(&(2, 0)).is_none());
    assert_eq!(array[(1, 0)], 33);
    assert_eq!(numbers, [10, 1, 20, 33, 4, 5, 6]);
    let mut array = owned(numbers.to_vec());
    array[(0, 1)] = 11;
    *array.get_mut(&(1, 1)).unwrap() = 44;
    assert_eq!(array.into_stored(), [10, 11, 20, 33, 44, 5, 6]);
}

#[test]
fn a_text_is_written_by_its_index() {
    let mut list = texts();
    rows_mut(&mut list)[(1, 2)].push('a');
    let mut array = owned(list);
    array[(0, 0)].push('b');
    array.get_mut(&(0, 1)).unwrap().push('c');
    assert_eq!((array[(1, 2)].as_str(), array[(0, 0)].as_str(), array[(0, 1)].as_str()), ("5a", "0b", "1c"));
}

/// What a call says as it panics.
fn said<T>(call: impl FnOnce() -> T) -> String {
    match catch_unwind(AssertUnwindSafe(call)) {
        Ok(_) => String::new(),
        Err(said) => said.downcast_ref::<String>().cloned().unwrap_or_default(),
    }
}

#[test]
fn an_index_that_is_none_is_named_with_the_shape() {
    let expected = "index (2, 0) is out of bounds of the shape [2, 3]";
    let mut numbers = NUMBERS;
    assert_eq!(said(|| rows(&NUMBERS)[(2, 0)]), expected);
    assert_eq!(said(|| rows_mut(&mut numbers)[(2, 0)]), expected);
    assert_eq!(said(|| rows_mut(&mut numbers)[(2, 0)] = 1), expected);
    assert_eq!(said(|| owned(texts())[(2, 0)].len()), expected);
    assert_eq!(said(|| owned(texts())[(2, 0)].push('a')), expected);
    assert_eq!(said(|| rows(&NUMBERS)[[0, 3]]), "index [0, 3] is out of bounds of the shape [2, 3]");
    assert_eq!(
        said(|| rows(&NUMBERS).rows().map(|row| row[3]).sum::<u8>()),
        "index 3 is out of bounds of the shape [3]"
    );
}

#[test]
fn items_by_index_are_the_models() {
    rounds(5_000, 9, |numbers| {
        let layout = Layout::random(numbers);
        let mut items: Vec<usize> = (0..layout.count).collect();
        let mut expected = items.clone();
        let mut array = layout.array_mut(&mut items);
        for _ in 0..4 {
            let index: Vec<usize> = layout.shape.iter().map(|len| numbers.below(len + 1)).collect();
            let is_index = index.iter().zip(&layout.shape).all(|(coordinate, len)| coordinate < len);
            assert_eq!(array.get_mut(&IxDyn(&index)).is_some(), is_index, "{layout:?} at {index:?}");
            if is_index {
                array[IxDyn(&index)] += 1000;
                expected[layout.place(&index)] += 1000;
                assert_eq!(array[IxDyn(&index)], expected[layout.place(&index)], "{layout:?} at {index:?}");
            }
        }
        assert_eq!(items, expected, "{layout:?}");
    });
}
