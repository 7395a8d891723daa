//! Places of random layouts from both ends, beside a list of them.

use crate::layouts::{Layout, rounds};
use crate::numbers::Numbers;
use ndarray_layout::CanIndexCheckMode::ReadOnly;
use ndarray_layout::{IntoPlaces, Ix1, Ix2, Lengths, Order, Places, Row, ShapeError, Strided};
use std::collections::VecDeque;

/// What the iterators over places have beside std's traits.
trait Ends: DoubleEndedIterator<Item = usize> + ExactSizeIterator {
    fn advance(&mut self, count: usize);
    fn advance_back(&mut self, count: usize);
    fn next_row(&mut self) -> Option<Row>;
    fn next_row_back(&mut self) -> Option<Row>;
}

/// Gives an iterator the calls that it has of its own.
macro_rules! ends {
    ($($head:tt)*) => {
        $($head)* {
            fn advance(&mut self, count: usize) {
                Self::advance(self, count);
            }

            fn advance_back(&mut self, count: usize) {
                Self::advance_back(self, count);
            }

            fn next_row(&mut self) -> Option<Row> {
                Self::next_row(self)
            }

            fn next_row_back(&mut self) -> Option<Row> {
                Self::next_row_back(self)
            }
        }
    };
}
ends!(impl Ends for Places<'_>);
ends!(impl<D: Lengths> Ends for IntoPlaces<D>);

/// A layout of 0 to 5 axes: with axes that go on where others end, of lengths 0 and 1, backwards, or of stride 0.
fn layout(numbers: &mut Numbers) -> Layout {
    match numbers.below(3) {
        0 => Layout::random(numbers),
        1 => Layout::shared(numbers),
        _ => {
            let axes = numbers.below(6);
            let shape = (0..axes).map(|_| numbers.below(4)).collect();
            Layout::of_shape(shape, numbers)
        }
    }
}

/// The places of a view in an order.
fn places_in(order: Order, layout: &Layout) -> VecDeque<usize> {
    let mut layout = layout.clone();
    if order == Order::ColumnMajor {
        layout.shape.reverse();
        layout.strides.reverse();
    }
    layout.places().into()
}

/// Leaves out so many places of a list at its front.
fn drop_first(model: &mut VecDeque<usize>, count: usize) {
    model.drain(..count.min(model.len()));
}

/// Leaves out so many places of a list at its back.
fn drop_last(model: &mut VecDeque<usize>, count: usize) {
    model.truncate(model.len().saturating_sub(count));
}

/// Whether a row is there where a list has places, and has the first ones of it or the last ones, which are taken from the list.
fn is_row(row: Option<Row>, model: &mut VecDeque<usize>, first: bool) -> bool {
    let Some(row) = row else {
        return model.is_empty();
    };
    let mut places = (0..row.len).map(|i| row.start.wrapping_add_signed(row.stride * i as isize));
    match first {
        true => row.len > 0 && places.all(|place| model.pop_front() == Some(place)),
        false => row.len > 0 && places.rev().all(|place| model.pop_back() == Some(place)),
    }
}

/// Takes a place, or some, at an end of an iterator and of the list; whether both are the same.
fn is_same_step(numbers: &mut Numbers, left: &mut impl Ends, model: &mut VecDeque<usize>) -> bool {
    let skipped = if numbers.once_in(2) { numbers.below(4) } else { numbers.below(model.len() + 2) };
    let same = match numbers.below(8) {
        0 => left.next() == model.pop_front(),
        1 => left.next_back() == model.pop_back(),
        2 => {
            drop_first(model, skipped);
            left.nth(skipped) == model.pop_front()
        }
        3 => {
            drop_last(model, skipped);
            left.nth_back(skipped) == model.pop_back()
        }
        4 => {
            drop_first(model, skipped);
            left.advance(skipped);
            true
        }
        5 => {
            drop_last(model, skipped);
            left.advance_back(skipped);
            true
        }
        6 => is_row(left.next_row(), model, true),
        _ => is_row(left.next_row_back(), model, false),
    };
    same && left.len() == model.len() && left.size_hint() == (model.len(), Some(model.len()))
}

/// Whether an iterator gives what is left of a list in one of the ways that give all, and then nothing from either end.
fn gives_all(numbers: &mut Numbers, mut left: impl Ends, model: &VecDeque<usize>) -> bool {
    let onto = |mut list: Vec<usize>, place| {
        list.push(place);
        list
    };
    match numbers.below(5) {
        0 => left.fold(Vec::new(), onto).iter().eq(model),
        1 => left.rfold(Vec::new(), onto).iter().eq(model.iter().rev()),
        2 => left.rev().eq(model.iter().rev().copied()),
        3 => left.sum::<usize>() == model.iter().sum(),
        _ => {
            let same = left.by_ref().eq(model.iter().copied());
            let none = (left.next(), left.next_back(), left.len()) == (None, None, 0);
            same && none && left.next_row().is_none() && left.next_row_back().is_none()
        }
    }
}

/// Whether an iterator gives a list, taken from both ends in any order.
fn gives_from_both_ends(numbers: &mut Numbers, mut places: impl Ends, mut model: VecDeque<usize>) -> bool {
    let steps = numbers.below(12);
    places.len() == model.len()
        && (0..steps).all(|_| is_same_step(numbers, &mut places, &mut model))
        && gives_all(numbers, places, &model)
}

/// One of the two orders.
fn order(numbers: &mut Numbers) -> Order {
    if numbers.once_in(2) { Order::RowMajor } else { Order::ColumnMajor }
}

#[test]
fn places_come_from_both_ends() {
    rounds(60_000, 16, |numbers| {
        let (layout, order) = (layout(numbers), order(numbers));
        let view = layout.view(ReadOnly).unwrap();
        let expected = places_in(order, &layout);
        assert!(gives_from_both_ends(numbers, view.iter_places(order), expected.clone()), "{layout:?} {order:?}");
        assert!(gives_from_both_ends(numbers, view.into_places(order), expected), "{layout:?} {order:?}");
    });
}

/// A row as its start, its stride and its length.
type Numbered = (usize, isize, usize);

/// A row in numbers.
fn numbered(row: Row) -> Numbered {
    (row.start, row.stride, row.len)
}

/// The rows that come one after another.
fn rows_by(next: impl FnMut() -> Option<Row>) -> Vec<Numbered> {
    std::iter::from_fn(next).map(numbered).collect()
}

#[test]
fn rows_of_places_are_joined_from_either_end() {
    rounds(10_000, 17, |numbers| {
        let (layout, order) = (layout(numbers), order(numbers));
        let view = layout.view(ReadOnly).unwrap();
        let mut joined = view.joined_rows(order);
        let expected = rows_by(|| joined.next());
        let backwards: Vec<_> = expected.iter().rev().copied().collect();
        let (mut places, mut others) = (view.iter_places(order), view.iter_places(order));
        let lent = (rows_by(|| places.next_row()), rows_by(|| others.next_row_back()));
        let into_places = || layout.view(ReadOnly).unwrap().into_places(order);
        let (mut places, mut others) = (into_places(), into_places());
        let owned = (rows_by(|| places.next_row()), rows_by(|| others.next_row_back()));
        assert!(lent == owned && lent == (expected, backwards), "{layout:?} {order:?}");
    });
}

/// Leaves out so many places of rows at the front.
fn shorten(rows: &mut VecDeque<Numbered>, count: usize) {
    for _ in 0..count {
        match rows.front_mut() {
            Some((start, stride, len)) if *len > 1 => (*start, *len) = (start.wrapping_add_signed(*stride), *len - 1),
            _ => drop(rows.pop_front()),
        }
    }
}

/// Leaves out so many places of rows at the back.
fn shorten_back(rows: &mut VecDeque<Numbered>, count: usize) {
    for _ in 0..count {
        match rows.back_mut() {
            Some((.., len)) if *len > 1 => *len -= 1,
            _ => drop(rows.pop_back()),
        }
    }
}

/// Takes a row, a place or some at an end of an iterator and of the rows that it has left; whether a row is all that is left of one.
fn is_step_of_rows(numbers: &mut Numbers, left: &mut impl Ends, rows: &mut VecDeque<Numbered>) -> bool {
    let count = numbers.below(5);
    match numbers.below(6) {
        0 => {
            shorten(rows, 1);
            left.next();
        }
        1 => {
            shorten_back(rows, 1);
            left.next_back();
        }
        2 => {
            shorten(rows, count);
            left.advance(count);
        }
        3 => {
            shorten_back(rows, count);
            left.advance_back(count);
        }
        4 => return left.next_row().map(numbered) == rows.pop_front(),
        _ => return left.next_row_back().map(numbered) == rows.pop_back(),
    }
    true
}

#[test]
fn rows_of_places_are_all_that_is_left_of_a_row() {
    rounds(30_000, 18, |numbers| {
        let (layout, order) = (layout(numbers), order(numbers));
        let view = layout.view(ReadOnly).unwrap();
        let (mut rows, mut joined) = (VecDeque::new(), view.joined_rows(order));
        rows.extend(rows_by(|| joined.next()));
        let steps = numbers.below(16);
        let (mut places, mut model) = (view.iter_places(order), rows.clone());
        assert!((0..steps).all(|_| is_step_of_rows(numbers, &mut places, &mut model)), "{layout:?} {order:?}");
        let mut places = view.into_places(order);
        assert!((0..steps).all(|_| is_step_of_rows(numbers, &mut places, &mut rows)), "{layout:?} {order:?}");
    });
}

#[test]
fn the_places_left_do_not_say_where_a_row_ends() -> Result<(), ShapeError> {
    let two_rows = Strided::from_parts(0, Ix2(2, 2), Ix2(5, 1), 1, 7, ReadOnly)?;
    let one_row = Strided::from_parts(1, Ix1(2), Ix1(4), 1, 7, ReadOnly)?;
    let (mut of_two, mut of_one) = (two_rows.iter_places(Order::RowMajor), one_row.iter_places(Order::RowMajor));
    of_two.advance(1);
    of_two.advance_back(1);
    assert_eq!((of_two.len(), of_one.len()), (2, 2));
    assert_eq!(rows_by(|| of_two.next_row()), [(1, 1, 1), (5, 1, 1)]);
    assert_eq!(rows_by(|| of_one.next_row()), [(1, 4, 2)]);
    Ok(())
}
