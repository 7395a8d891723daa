//! What depends on no order goes over each index once: beside a list of the places of random layouts, of up to eight axes.

use crate::allocator::failing_at;
use crate::layouts::{Layout, rounds};
use crate::numbers::Numbers;
use ndarray_layout::{ArrayView, ArrayViewMut, ErrorKind, Lengths, from_kind};

/// A layout of up to eight axes, with others of length 1, by any stride, between those of a random one.
fn with_more_axes(numbers: &mut Numbers) -> Layout {
    let mut layout = Layout::random(numbers);
    for _ in 0..numbers.below(4) {
        let axis = numbers.below(layout.shape.len() + 1);
        layout.shape.insert(axis, 1);
        layout.strides.insert(axis, numbers.between(-9, 10));
    }
    layout
}

/// A list in order.
fn sorted<T: Ord>(mut items: Vec<T>) -> Vec<T> {
    items.sort();
    items
}

/// Calls `map_into_nearest`, and returns at which items; what is written is the number of the call, from 1 on, beside the item.
fn write<D: Lengths>(from: &ArrayView<'_, usize, D>, mut to: ArrayViewMut<'_, (usize, usize), D>) -> Vec<usize> {
    let mut seen = Vec::new();
    let written = from.map_into_nearest(&mut to, |item| {
        seen.push(*item);
        (seen.len(), *item)
    });
    assert_eq!(written, Ok(()));
    seen
}

#[test]
fn items_that_are_written_beside_others_are_each_met_once() {
    rounds(10_000, 32, |numbers| {
        let layout = with_more_axes(numbers);
        let other = Layout::of_shape(layout.shape.clone(), numbers);
        let others: Vec<usize> = (0..other.count).collect();
        let all = vec![(0, 0); layout.count];
        let mut items = all.clone();
        let seen = write(&other.array(&others), layout.array_mut(&mut items));
        let pairs: Vec<(usize, usize)> = layout.places().into_iter().zip(other.places()).collect();
        let turns = sorted(pairs.iter().map(|(place, _)| items[*place].0).collect());
        assert_eq!(turns, (1..=pairs.len()).collect::<Vec<_>>(), "{other:?} to {layout:?}");
        let mut expected = all;
        for (place, from) in pairs {
            let turn = items[place].0;
            assert_eq!(seen[turn - 1], from, "{other:?} to {layout:?}");
            expected[place] = (turn, from);
        }
        assert_eq!(items, expected, "{other:?} to {layout:?}");
    });
}

#[test]
fn items_that_are_read_are_each_met_once() {
    rounds(10_000, 33, |numbers| {
        let layout = if numbers.once_in(3) { Layout::shared(numbers) } else { with_more_axes(numbers) };
        let items: Vec<u64> = (0..layout.count as u64).map(|place| place * place).collect();
        let expected: Vec<u64> = layout.places().into_iter().map(|place| items[place]).collect();
        let array = layout.array(&items);
        let mut seen = Vec::new();
        array.for_each_nearest(|item| seen.push(*item));
        assert_eq!(sorted(seen), sorted(expected.clone()), "{layout:?}");
        let folded = array.fold_nearest((0, 0), |(count, total), item| (count + 1, total + item));
        assert_eq!(folded, (expected.len(), expected.iter().sum()), "{layout:?}");
        assert_eq!(array.sum(), Some(expected.iter().sum()), "{layout:?}");
    });
}

#[test]
fn arrays_are_equal_where_the_items_of_each_index_are() {
    rounds(10_000, 34, |numbers| {
        let layout = with_more_axes(numbers);
        let other = Layout::of_shape(layout.shape.clone(), numbers);
        let others: Vec<usize> = (0..other.count).collect();
        let mut items = vec![1_000_000; layout.count];
        let pairs: Vec<(usize, usize)> = layout.places().into_iter().zip(other.places()).collect();
        pairs.iter().for_each(|(place, from)| items[*place] = others[*from]);
        let are_equal = |items: &[usize]| {
            let (one, another) = (layout.array(items), other.array(&others));
            let equal = one.eq(&another);
            assert_eq!([another.eq(&one), one == another, another == one], [equal; 3]);
            equal
        };
        assert!(are_equal(&items), "{layout:?}, {other:?}");
        if let Some((place, _)) = pairs.get(numbers.below(pairs.len().max(1))) {
            items[*place] += 1;
            assert!(!are_equal(&items), "{layout:?}, {other:?}");
        }
    });
}

#[test]
fn no_call_of_them_takes_memory() {
    rounds(500, 35, |numbers| {
        let layout = with_more_axes(numbers);
        let other = Layout::of_shape(layout.shape.clone(), numbers);
        let mut items = vec![1_u64; layout.count];
        let others = vec![1_u64; other.count];
        let (mut array, from) = (layout.array_mut(&mut items), other.array(&others));
        let count = other.places().len() as u64;
        let allocations = |call: &mut dyn FnMut()| failing_at(usize::MAX, call).1;
        assert_eq!(allocations(&mut || array.fill(7)), 0, "{layout:?}");
        assert_eq!(allocations(&mut || array.assign(&from).unwrap()), 0, "{layout:?}");
        assert_eq!(allocations(&mut || assert_eq!(from.sum(), Some(count))), 0, "{other:?}");
    });
}

#[test]
fn other_shapes_are_left_alone() {
    let (mut items, others) = ([1, 2, 3], [4, 5, 6]);
    let layout = |len| Layout { shape: vec![len], strides: vec![-1], start: 2, count: 3 };
    let refused = layout(2).array(&others).map_into_nearest(&mut layout(3).array_mut(&mut items), |_| panic!("a call"));
    assert_eq!(refused, Err::<(), _>(from_kind(ErrorKind::IncompatibleShape)));
    assert_eq!(items, [1, 2, 3]);
}
