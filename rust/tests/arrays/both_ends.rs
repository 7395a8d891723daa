//! What comes along an axis of an array, taken and left out at both ends in any order, beside a list of what is due. What comes of an array
//! to be written is in `tests/parts/axes.rs`.

use crate::layouts::{Layout, rounds};
use crate::numbers::Numbers;
use ndarray_layout::{ArrayView, Axis, Lengths, LentRow};

/// Asserts that an iterator and a list give the same, in order, backwards and however they are asked.
fn gives_what_is_due<I>(
    numbers: &mut Numbers,
    made: impl Fn() -> I,
    layouts: &[Layout],
    places: fn(I::Item) -> Vec<usize>,
) where
    I: DoubleEndedIterator + ExactSizeIterator,
{
    let (mut left, mut due) = (made(), layouts.iter().map(Layout::places));
    assert!(made().map(places).eq(due.clone()) && made().rev().map(places).eq(due.clone().rev()), "{layouts:?}");
    loop {
        assert_eq!((left.len(), left.size_hint()), (due.len(), due.size_hint()), "{layouts:?}");
        let out = numbers.below(3);
        let (found, expected) = match numbers.below(4) {
            0 => (left.next(), due.next()),
            1 => (left.next_back(), due.next_back()),
            2 => (left.nth(out), due.nth(out)),
            _ => (left.nth_back(out), due.nth_back(out)),
        };
        assert_eq!(found.map(places), expected, "{layouts:?}");
        if expected.is_none() {
            assert_eq!((left.len(), left.next().is_none(), left.next_back().is_none()), (0, true, true));
            return;
        }
    }
}

/// The layouts of the chunks of a layout along an axis.
fn chunks_of(layout: &Layout, axis: usize, size: usize) -> Vec<Layout> {
    let chunk = |first: usize| {
        let mut chunk = layout.clone();
        chunk.shape[axis] = size.min(layout.shape[axis] - first);
        chunk.start = layout.start.wrapping_add_signed(first as isize * layout.strides[axis]);
        chunk
    };
    (0..layout.shape[axis]).step_by(size).map(chunk).collect()
}

/// The items of an array, which are their places.
fn read<D: Lengths>(array: ArrayView<'_, usize, D>) -> Vec<usize> {
    array.to_vec().expect("memory for a list")
}

/// The items of a row.
fn items(row: LentRow<'_, usize>) -> Vec<usize> {
    row.into_iter().copied().collect()
}

#[test]
fn what_comes_along_an_axis_of_random_arrays_comes_however_it_is_asked_for() {
    rounds(10_000, 20, |numbers| {
        let layout = if numbers.once_in(2) { Layout::random(numbers) } else { Layout::shared(numbers) };
        let Some(axis) = numbers.below(layout.shape.len() + 1).checked_sub(1) else {
            return;
        };
        let (size, numbered) = (1 + numbers.below(4), (0..layout.count).collect::<Vec<_>>());
        let (array, lanes) = (layout.array(&numbered), layout.lanes(axis));
        let arrays: Vec<Layout> = (0..layout.shape[axis]).map(|at| layout.at(axis, at)).collect();
        gives_what_is_due(numbers, || array.axis_iter(Axis(axis)).unwrap(), &arrays, read);
        let chunks = || array.axis_chunks_iter(Axis(axis), size).unwrap();
        gives_what_is_due(numbers, chunks, &chunks_of(&layout, axis, size), read);
        gives_what_is_due(numbers, || array.lanes(Axis(axis)).unwrap(), &lanes, items);
        if axis + 1 == layout.shape.len() {
            gives_what_is_due(numbers, || array.view().into_rows(), &lanes, items);
        }
    });
}
