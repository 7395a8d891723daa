//! Folds of the iterators whose `next` is proved: what a loop over `next` returns.

use crate::layouts::{Layout, rounds};
use crate::numbers::Numbers;
use crate::{NUMBERS, rows, texts};
use ndarray_layout::{ArrayView, Fit, Ix1, Order, OwnedArray, ShapeBuilder, StrideShape, Strides, s};

#[test]
fn sums_and_joins_are_those_of_the_items() {
    assert_eq!((rows(&NUMBERS).iter().sum::<u8>(), rows(&NUMBERS).reversed_axes().iter().max()), (15, Some(&5)));
    let texts = texts();
    let joined = rows(&texts).reversed_axes().iter().fold(String::new(), |text, item| text + item);
    assert_eq!(joined, "031425");
    let columns = ndarray_layout::Ix2(2, 3).f().unwrap();
    let owned = OwnedArray::from_shape_vec(columns, NUMBERS.to_vec());
    let mut found = Vec::new();
    owned.unwrap_or_else(|_| panic!("two rows")).iter().for_each(|item| found.push(item));
    assert_eq!(found, [0, 2, 4, 1, 3, 5]);
}

#[test]
fn items_backwards_come_in_order() {
    for count in [1, 7, 8, 9, 100] {
        let items: Vec<usize> = (0..count).collect();
        let array = ArrayView::from_shape(Ix1(count), &items).unwrap();
        let turned: ArrayView<'_, usize, Ix1> = array.slice_with(&s![..;-1], Fit::Strict).unwrap();
        let onto = |list: Vec<usize>, item: &usize| [list, vec![*item]].concat();
        let backwards: Vec<usize> = items.iter().rev().copied().collect();
        assert_eq!(
            (turned.fold(Vec::new(), onto), turned.iter().fold(Vec::new(), onto)),
            (backwards.clone(), backwards.clone())
        );
        assert_eq!(
            (turned.iter().rfold(Vec::new(), onto), turned.iter().copied().collect()),
            (items.clone(), backwards.clone())
        );
        assert_eq!(
            (turned.iter().copied().rev().collect(), turned.into_iter().fold(Vec::new(), onto)),
            (items.clone(), backwards)
        );
    }
}

/// Whether an iterator gives the items of a list: some are taken or left out at its front, then the others are folded.
fn gives<I: Iterator<Item = usize> + ExactSizeIterator>(
    numbers: &mut Numbers,
    mut items: I,
    expected: &[usize],
) -> bool {
    let mut left = expected.iter().copied();
    for _ in 0..numbers.below(6) {
        let skipped = numbers.below(3) * numbers.below(left.len() + 2);
        if items.nth(skipped) != left.nth(skipped) || items.len() != left.len() {
            return false;
        }
    }
    if numbers.once_in(4) && items.nth(usize::MAX).is_none() {
        return items.next().is_none();
    }
    let mut folded = Vec::new();
    items.for_each(|item| folded.push(item));
    left.eq(folded)
}

#[test]
fn folds_are_the_models() {
    rounds(20_000, 4, |numbers| {
        let layout = if numbers.once_in(2) { Layout::random(numbers) } else { Layout::shared(numbers) };
        let items: Vec<usize> = (0..layout.count).collect();
        let (array, expected) = (layout.array(&items), layout.places());
        assert!(gives(numbers, array.iter().copied(), &expected), "{layout:?}");
        assert!(gives(numbers, array.strided().iter_places(Order::RowMajor), &expected), "{layout:?}");
        assert_eq!(array.iter().copied().collect::<Vec<_>>(), expected, "{layout:?}");
        assert!(array.iter().rev().copied().eq(expected.iter().rev().copied()), "{layout:?}");
        let turned = array.reversed_axes();
        let by_columns: Vec<usize> = turned.view().into_iter().copied().collect();
        assert!(gives(numbers, turned.iter().copied(), &by_columns), "{layout:?}, turned");
    });
}

#[test]
fn folds_by_columns_are_the_lists() {
    rounds(5_000, 5, |numbers| {
        let layout = Layout::random(numbers);
        let items: Vec<usize> = (0..layout.count).collect();
        let array = layout.array(&items);
        let expected = array.strided().places(Order::ColumnMajor).unwrap();
        assert!(gives(numbers, array.strided().iter_places(Order::ColumnMajor), &expected), "{layout:?}");
    });
}

#[test]
fn copies_are_folded_as_the_models() {
    rounds(2_000, 6, |numbers| {
        let shape: Vec<usize> = (0..numbers.below(4)).map(|_| numbers.below(5)).collect();
        let items: Vec<usize> = (0..shape.iter().product()).collect();
        let strides = if numbers.once_in(2) { Strides::C } else { Strides::F };
        let shape = StrideShape { dim: ndarray_layout::IxDyn(&shape), strides };
        let array = OwnedArray::from_shape_vec(shape, items).unwrap_or_else(|_| panic!("as many items"));
        let expected: Vec<usize> = array.strided().iter_places(Order::RowMajor).collect();
        assert!(gives(numbers, array.iter(), &expected));
        assert_eq!(array.iter().collect::<Vec<_>>(), expected);
        assert!(array.iter().rev().eq(expected.iter().rev().copied()));
    });
}

#[test]
fn totals_are_the_models() {
    rounds(10_000, 6, |numbers| {
        let layout = if numbers.once_in(2) { Layout::random(numbers) } else { Layout::shared(numbers) };
        let items: Vec<usize> = (0..layout.count).map(|_| numbers.below(50)).collect();
        let (array, expected) = (layout.array(&items), layout.places());
        let expected = || expected.iter().map(|place| items[*place]);
        assert_eq!(array.sum(), Some(expected().sum::<usize>() as u64), "{layout:?}");
        assert_eq!((array.min(), array.max()), (expected().min(), expected().max()), "{layout:?}");
        let least = numbers.below(50);
        assert_eq!(array.any(|item| *item > least), expected().any(|item| item > least), "{layout:?}");
        assert_eq!(array.all(|item| *item > least), expected().all(|item| item > least), "{layout:?}");
    });
}
