//! Joined rows of random layouts beside a list of places.

use crate::layouts::{Layout, rounds};
use crate::numbers::Numbers;
use ndarray_layout::CanIndexCheckMode::ReadOnly;
use ndarray_layout::{Lengths, Order, Row, Rows, StridedRows, joined_in_all, signed, unsigned};

/// A layout in which axes often go on where others end.
fn layout(numbers: &mut Numbers) -> Layout {
    match numbers.below(3) {
        0 => Layout::random(numbers),
        1 => Layout::shared(numbers),
        _ => {
            let axes = numbers.below(5);
            let shape = (0..axes).map(|_| numbers.below(5)).collect();
            Layout::of_shape(shape, numbers)
        }
    }
}

/// The places of a row.
fn places(row: Row) -> Vec<usize> {
    (0..row.len).map(|i| row.start.wrapping_add_signed(row.stride * i as isize)).collect()
}

/// How many places of a list lie evenly from its first one on.
fn evenly(places: &[usize]) -> usize {
    let step = |at: usize| places[at].wrapping_sub(places[at - 1]);
    let more = (2..places.len()).take_while(|at| step(*at) == step(1)).count();
    places.len().min(2) + more
}

#[test]
fn rows_are_as_long_as_the_first_places_lie_evenly() {
    rounds(10_000, 11, |numbers| {
        let layout = layout(numbers);
        let expected = layout.places();
        let view = layout.view(ReadOnly).unwrap();
        let rows: Vec<Row> = view.joined_rows(Order::RowMajor).collect();
        assert_eq!(rows.iter().copied().flat_map(places).collect::<Vec<_>>(), expected, "{layout:?}");
        assert!(rows.iter().all(|row| row.len == evenly(&expected)), "{layout:?}: {rows:?}");
        assert_eq!(view.joined_rows(Order::RowMajor).len(), rows.len(), "{layout:?}");
    });
}

#[test]
fn rows_by_columns_are_those_of_turned_axes() {
    rounds(5_000, 12, |numbers| {
        let layout = layout(numbers);
        let mut turned = layout.clone();
        turned.shape.reverse();
        turned.strides.reverse();
        let (view, expected) = (layout.view(ReadOnly).unwrap(), turned.places());
        let rows: Vec<Row> = view.joined_rows(Order::ColumnMajor).collect();
        assert_eq!(rows.iter().copied().flat_map(places).collect::<Vec<_>>(), expected, "{layout:?}");
        assert!(rows.iter().all(|row| row.len == evenly(&expected)), "{layout:?}: {rows:?}");
    });
}

/// How many places of two lists lie evenly in both from their first ones on.
fn evenly_in_both(places: &[usize], others: &[usize]) -> usize {
    evenly(places).min(evenly(others))
}

#[test]
fn rows_of_two_views_are_as_long_as_both_lie_evenly() {
    rounds(10_000, 13, |numbers| {
        let one = layout(numbers);
        let mut other = Layout::of_shape(one.shape.clone(), numbers);
        if numbers.once_in(3) {
            other.strides.copy_from_slice(&one.strides);
            (other.start, other.count) = (one.start, one.count);
        }
        let (view, another) = (one.view(ReadOnly).unwrap(), other.view(ReadOnly).unwrap());
        let (rows, others) = view.joined_rows_with(&another, Order::RowMajor);
        let (rows, others): (Vec<Row>, Vec<Row>) = (rows.collect(), others.collect());
        let (expected, also) = (one.places(), other.places());
        assert_eq!(rows.iter().copied().flat_map(places).collect::<Vec<_>>(), expected, "{one:?}, {other:?}");
        assert_eq!(others.iter().copied().flat_map(places).collect::<Vec<_>>(), also, "{one:?}, {other:?}");
        let len = evenly_in_both(&expected, &also);
        assert!(rows.iter().chain(&others).all(|row| row.len == len), "{one:?}, {other:?}: {rows:?}");
    });
}

/// The layout with so many of its fastest axes as one of a length and a stride.
fn with_joined(layout: &Layout, count: usize, len: usize, stride: usize) -> Layout {
    let mut joined = layout.clone();
    joined.shape.truncate(layout.shape.len() - count);
    joined.strides.truncate(layout.shape.len() - count);
    joined.shape.push(len);
    joined.strides.push(signed(stride));
    joined
}

#[test]
fn axes_joined_in_all_layouts_are_as_long_as_all_lie_evenly() {
    rounds(10_000, 18, |numbers| {
        let first = layout(numbers);
        let mut layouts = vec![first.clone()];
        for _ in 0..numbers.below(4) {
            let other = Layout::of_shape(first.shape.clone(), numbers);
            layouts.push(if numbers.once_in(3) { first.clone() } else { other });
        }
        let strides: Vec<usize> =
            layouts.iter().flat_map(|layout| layout.strides.iter().map(|stride| unsigned(*stride))).collect();
        let mut joined = vec![7; layouts.len()];
        let (count, len) = joined_in_all(Order::RowMajor, &first.shape, &strides, &mut joined);
        let mut least = usize::MAX;
        for (layout, stride) in layouts.iter().zip(&joined) {
            let expected = layout.places();
            assert_eq!(
                with_joined(layout, count, len, *stride).places(),
                expected,
                "{layouts:?}: {count} {len} {joined:?}"
            );
            least = least.min(evenly(&expected));
        }
        if !first.shape.contains(&0) {
            assert_eq!(len, least, "{layouts:?}: {count} {joined:?}");
        }
        let backwards = |items: &[usize]| -> Vec<usize> { items.iter().rev().copied().collect() };
        let mut turned = vec![7; layouts.len()];
        let answer = joined_in_all(Order::ColumnMajor, &backwards(&first.shape), &backwards(&strides), &mut turned);
        assert_eq!((answer, backwards(&turned)), ((count, len), joined), "{layouts:?}");
    });
}

/// What the iterators over rows have beside std's traits.
trait Ends: DoubleEndedIterator<Item = Row> + ExactSizeIterator {
    fn advance(&mut self, count: usize);
    fn advance_back(&mut self, count: usize);
}

/// Gives an iterator the calls that it has of its own.
macro_rules! ends {
    ($($head:tt)*) => {
        $($head)* {
            fn advance(&mut self, count: usize) {
                Self::advance(self, count);
            }

            fn advance_back(&mut self, count: usize) {
                Self::advance_back(self, count);
            }
        }
    };
}
ends!(impl Ends for Rows<'_>);
ends!(impl<D: Lengths> Ends for StridedRows<D>);

/// Whether an iterator gives a list, taken from both ends in any order, with items left out at either.
fn gives_from_both_ends(numbers: &mut Numbers, mut rows: impl Ends, expected: &[Row]) -> bool {
    let mut left = expected.iter();
    let same = |row: Option<Row>, expected: Option<&Row>| match (row, expected) {
        (Some(row), Some(expected)) => {
            (row.start, row.stride, row.len) == (expected.start, expected.stride, expected.len)
        }
        (row, expected) => row.is_none() && expected.is_none(),
    };
    while left.len() > 0 && !numbers.once_in(40) {
        let skipped = if numbers.once_in(3) { numbers.below(4) } else { 0 };
        let is_same = if numbers.once_in(2) {
            rows.advance(skipped);
            same(rows.next(), left.nth(skipped))
        } else {
            rows.advance_back(skipped);
            same(rows.next_back(), left.nth_back(skipped))
        };
        if !is_same || rows.len() != left.len() {
            return false;
        }
    }
    rows.len() == left.len() && rows.zip(left).all(|(row, expected)| same(Some(row), Some(expected)))
}

#[test]
fn rows_come_from_both_ends() {
    rounds(20_000, 14, |numbers| {
        let layout = layout(numbers);
        let view = layout.view(ReadOnly).unwrap();
        let order = if numbers.once_in(2) { Order::RowMajor } else { Order::ColumnMajor };
        let rows = || if layout.count % 2 == 0 { view.rows(order) } else { view.joined_rows(order) };
        // (forwards they are those of the list of places)
        let expected: Vec<Row> = rows().collect();
        assert!(gives_from_both_ends(numbers, rows(), &expected), "{layout:?} {order:?}");
        let owned = layout.view(ReadOnly).unwrap();
        let owned = if layout.count % 2 == 0 { owned.into_rows(order) } else { owned.into_joined_rows(order) };
        assert!(gives_from_both_ends(numbers, owned, &expected), "{layout:?} {order:?}");
        assert!(
            rows().rev().map(|row| row.start).eq(expected.iter().rev().map(|row| row.start)),
            "{layout:?} {order:?}"
        );
    });
}

#[test]
fn more_rows_than_are_left_leave_none() {
    rounds(1_000, 15, |numbers| {
        let layout = layout(numbers);
        let view = layout.view(ReadOnly).unwrap();
        for count in [view.rows(Order::RowMajor).len(), usize::MAX] {
            let (mut rows, mut others) = (view.rows(Order::RowMajor), view.rows(Order::RowMajor));
            rows.next();
            rows.advance(count);
            others.next_back();
            others.advance_back(count);
            assert!(rows.next().is_none() && rows.next_back().is_none() && others.next().is_none(), "{layout:?}");
        }
    });
}
