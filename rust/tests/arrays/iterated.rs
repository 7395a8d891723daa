//! Iterators over items that are lent for as long as the data is.

use crate::layouts::{Layout, rounds};
use crate::numbers::Numbers;
use crate::{NUMBERS, of_count, rows, rows_mut, texts};
use ndarray_layout::{ArrayView, Dimension, Ix1, Ix2, Lengths, ViewIter};
use std::collections::VecDeque;
use std::fmt::Debug;

/// The items of a slice as an array that is made here, which the iterator outlives.
fn positive<T: PartialOrd + Default>(items: &[T]) -> impl Iterator<Item = &T> {
    rows(items).reversed_axes().into_iter().filter(|item| **item > T::default())
}

/// The rows of an array that is made here.
fn firsts<T>(items: &[T]) -> impl Iterator<Item = &T> {
    let flat = ArrayView::from_shape(Ix2(3, 2), items).unwrap();
    flat.into_rows().filter_map(|row| row.into_iter().next())
}

#[test]
fn an_iterator_is_returned_from_where_the_array_was_made() {
    assert_eq!(positive(&NUMBERS).copied().collect::<Vec<_>>(), [3, 1, 4, 2, 5]);
    assert_eq!(firsts(&NUMBERS).copied().collect::<Vec<_>>(), [0, 2, 4]);
    assert_eq!(positive(&texts()).map(String::as_str).collect::<Vec<_>>(), ["0", "3", "1", "4", "2", "5"]);
    assert_eq!(firsts(&texts()).map(String::as_str).collect::<Vec<_>>(), ["0", "2", "4"]);
}

#[test]
fn an_array_is_iterated_by_a_loop() {
    let (mut sum, array) = (0, rows(&NUMBERS));
    for item in &array {
        sum += item;
    }
    for item in array {
        sum += item;
    }
    assert_eq!(sum, 30);
    let joined = rows(&texts()).into_iter().fold(String::new(), |text, item| text + item);
    assert_eq!(joined, "012345");
}

#[test]
fn an_iterator_says_how_many_are_left() {
    let mut left = rows(&NUMBERS).into_iter();
    assert_eq!((left.next_back(), left.len(), left.size_hint()), (Some(&5), 5, (5, Some(5))));
    assert_eq!(format!("{left:?}"), "ViewIter { left: 5, .. }");
    assert_eq!((left.clone().last(), left.clone().count(), left.max()), (Some(&4), 5, Some(&4)));
    let mut none = ArrayView::from_shape(Ix1(0), &NUMBERS).unwrap().into_iter();
    assert_eq!((none.next(), none.next_back(), none.len()), (None, None, 0));
}

#[test]
fn items_come_with_their_indices() {
    let (list, mut written) = (texts(), texts());
    let array = rows(&list);
    let found =
        array.t().indexed_iter().filter(|(index, _)| index.1 == 1).map(|(_, text)| text.as_str()).collect::<String>();
    assert_eq!((found, array.indexed_iter().nth(4)), ("345".to_string(), Some(((1, 1), &list[4]))));
    let mut turned = rows_mut(&mut written).reversed_axes();
    let lens = turned.indexed_iter_mut().map(|((row, _), text)| {
        text.push_str(&row.to_string());
        text.len()
    });
    assert_eq!(lens.sum::<usize>(), 12);
    assert_eq!(written.concat(), "0011223041526");
    assert_eq!(format!("{:?}", array.indexed_iter()), "IndexedIter { left: 6, .. }");
}

/// Takes one item, or some, at an end of an iterator and of the model; whether both are the same.
fn is_same_step<'a, T: PartialEq + Debug, D: Lengths>(
    numbers: &mut Numbers,
    left: &mut ViewIter<'a, T, D>,
    model: &mut VecDeque<&'a T>,
) -> bool {
    let skipped = if numbers.once_in(2) { numbers.below(3) } else { numbers.below(model.len() + 2) };
    let (found, expected) = match numbers.below(4) {
        0 => (left.next(), model.pop_front()),
        1 => (left.next_back(), model.pop_back()),
        2 => {
            model.drain(..skipped.min(model.len()));
            (left.nth(skipped), model.pop_front())
        }
        _ => {
            model.truncate(model.len().saturating_sub(skipped));
            (left.nth_back(skipped), model.pop_back())
        }
    };
    found == expected && left.len() == model.len()
}

/// Compares an iterator with the model: steps at both ends, then all that is left.
fn compare<T: PartialEq + Debug, D: Dimension>(
    numbers: &mut Numbers,
    (array, items): (ArrayView<'_, T, D>, &[T]),
    layout: &Layout,
) {
    let mut model: VecDeque<&T> = layout.places().into_iter().map(|place| &items[place]).collect();
    let mut left = array.into_iter();
    assert_eq!(left.len(), model.len(), "{layout:?}");
    for _ in 0..numbers.below(8) {
        assert!(is_same_step(numbers, &mut left, &mut model), "{layout:?}");
    }
    let expected: Vec<&T> = model.iter().copied().collect();
    let backwards: Vec<&T> = model.iter().rev().copied().collect();
    let mut folded = Vec::new();
    left.clone().for_each(|item| folded.push(item));
    let rfolded = left.clone().rfold(Vec::new(), |list, item| [list, vec![item]].concat());
    assert_eq!((&folded, &rfolded), (&expected, &backwards), "{layout:?}");
    assert_eq!((left.clone().last(), left.clone().count()), (expected.last().copied(), expected.len()), "{layout:?}");
    assert_eq!(left.clone().rev().collect::<Vec<_>>(), backwards, "{layout:?}");
    assert_eq!(left.by_ref().collect::<Vec<_>>(), expected, "{layout:?}");
    assert_eq!((left.next(), left.next_back(), left.len()), (None, None, 0), "{layout:?}");
}

#[test]
fn items_from_both_ends_are_the_models() {
    rounds(20_000, 1, |numbers| {
        let layout = if numbers.once_in(2) { Layout::random(numbers) } else { Layout::shared(numbers) };
        let items: Vec<usize> = (0..layout.count).collect();
        compare(numbers, (layout.array(&items), &items), &layout);
        of_count!(layout.shape.len(), D => {
            compare(numbers, (layout.array(&items).into_dimensionality::<D>().unwrap(), &items), &layout);
        });
    });
}

#[test]
fn texts_from_both_ends_are_the_models() {
    rounds(1_000, 2, |numbers| {
        let layout = Layout::random(numbers);
        let items: Vec<String> = (0..layout.count).map(|place| place.to_string()).collect();
        compare(numbers, (layout.array(&items), &items), &layout);
    });
}

#[test]
fn indexed_items_are_the_models() {
    rounds(2_000, 3, |numbers| {
        let layout = Layout::shared(numbers);
        let items: Vec<usize> = (0..layout.count).collect();
        let expected: Vec<_> = layout.indices().into_iter().map(|index| (layout.place(&index), index)).collect();
        let array = layout.array(&items);
        let found: Vec<_> = array.indexed_iter().map(|(index, item)| (*item, index.slice().to_vec())).collect();
        let mut folded = Vec::new();
        array.indexed_iter().for_each(|(index, item)| folded.push((*item, index.slice().to_vec())));
        assert_eq!((&found, &folded, array.indexed_iter().len()), (&expected, &expected, expected.len()), "{layout:?}");
    });
}
