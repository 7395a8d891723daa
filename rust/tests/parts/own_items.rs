//! A part is made of a view alone that gives each index an item to itself, whatever call made that view.

use crate::model::Plain;
use crate::numbers::Numbers;
use crate::random::array;
use ndarray_layout::CanIndexCheckMode::{OwnedMutable, ReadOnly};
use ndarray_layout::{ArrayView, ArrayViewMut, Axis, Ix1, Ix2, IxDyn, Lengths, Row, ShapeError, Strided, s, unsigned};
use std::collections::BTreeSet;
use std::panic::catch_unwind;

/// Whether a part is made of a view and so many items.
fn is_made<D: Lengths + 'static>(view: Result<Strided<D>, ShapeError>, len: usize) -> bool
where
    Strided<D>: std::panic::UnwindSafe,
{
    let view = view.expect("a view of more items");
    catch_unwind(move || ArrayViewMut::new(view, &mut vec![0_u8; len]).strided().len()).is_ok()
}

#[test]
fn a_view_that_leaves_its_items_or_has_an_alias_panics() {
    let backwards = |len| Strided::from_parts(2, Ix1(3), Ix1(unsigned(-1)), 1, len, ReadOnly);
    assert!(is_made(backwards(3), 3) && is_made(backwards(9), 3) && !is_made(backwards(9), 2));
    let grid = || Strided::from_parts(1, Ix2(2, 3), Ix2(3, 1), 1, 99, ReadOnly);
    assert!(is_made(grid(), 7) && !is_made(grid(), 6) && !is_made(grid(), 0));
    let aliased = |row, column| Strided::from_parts(0, Ix2(2, 2), Ix2(row, column), 1, 99, ReadOnly);
    assert!(is_made(aliased(2, 1), 99) && !is_made(aliased(1, 1), 99) && !is_made(aliased(0, 1), 99));
    assert!(!is_made(aliased(1, 2), 3) && !is_made(aliased(3, 1), 4) && is_made(aliased(3, 1), 5));
    let far = Strided::from_parts(1 << 62, Ix1(2), Ix1(1 << 61), 1, usize::MAX >> 1, ReadOnly);
    assert!(!is_made(far, 99));
    let none = Strided::from_parts(0, Ix2(0, 3), Ix2(0, 0), 1, 0, ReadOnly);
    assert!(is_made(none, 0));
}

#[test]
fn a_view_whose_numbers_are_no_views_panics() {
    let row = |start, stride, len| Ok(Row { start, stride, len }.layout());
    assert!(is_made(row(3, -1, 4), 4) && !is_made(row(2, -1, 4), 4) && !is_made(row(usize::MAX, 1, 2), 4));
    for stride in [isize::MAX, isize::MAX / 2, isize::MIN, isize::MIN + 1] {
        assert!(!is_made(row(0, stride, 9), 4) && !is_made(row(usize::MAX, stride, 9), 4), "{stride}");
        let reads = catch_unwind(|| ArrayView::new(Row { start: 0, stride, len: 9 }.layout(), &[0_u8; 4]).len());
        assert!(reads.is_err(), "{stride}");
    }
}

#[test]
#[should_panic(expected = "two indices of the view share an item, or one is past the items")]
fn slices_of_an_array_whose_view_has_an_alias_panic() {
    let view = Strided::from_parts(0, Ix2(2, 2), Ix2(1, 1), 1, 3, ReadOnly).expect("a view of three items");
    let mut items = [0_u8; 3];
    let _ = ArrayViewMut::new(view, &mut items).multi_slice_mut([s![0, ..]]).map(|parts| parts.len());
}

#[test]
fn each_slice_of_an_accepted_view_is_made_a_part() {
    let view = || Strided::from_shape(Ix2(4, 6).into(), 1, 24, OwnedMutable).expect("a layout");
    for slice in [s![.., ..;-1], s![..;3, 1..;2], s![4.., 6..], s![..;-3, ..0]] {
        assert!(is_made(Ok(view().sliced(slice).expect("a slice")), 24), "{slice:?}");
    }
    assert!(is_made(Ok(view().reversed_axes()), 24) && is_made(Ok(view().diag()), 24));
}

/// Adds 1 to each item of a part, and returns how many there are.
fn count<D: Lengths>(mut part: ArrayViewMut<'_, u8, D>) -> usize {
    part.map_in_place(|item| *item += 1);
    part.len()
}

#[test]
fn each_array_that_the_package_lends_is_made_a_part() {
    let mut numbers = Numbers::new(1_980_001);
    for _ in 0..3_000 {
        let plain = Plain::any(&mut numbers);
        let whole = plain.whole();
        if whole.shape.is_empty() {
            continue;
        }
        let mut items = vec![0_u8; plain.len];
        let axis = Axis(numbers.below(whole.shape.len()));
        let size = 1 + numbers.below(3);
        let mut array = array::<_, IxDyn>(&plain, &mut items);
        let mut times = usize::from(count(array.view_mut()) == whole.places.len());
        times += usize::from(array.axis_iter_mut(axis).is_ok_and(|lent| lent.map(count).sum::<usize>() > 0));
        times +=
            usize::from(array.axis_chunks_iter_mut(axis, size).is_ok_and(|lent| lent.map(count).sum::<usize>() > 0));
        times += usize::from(array.rows_mut().map(count).sum::<usize>() > 0);
        let at = numbers.below(whole.shape[axis.index()] + 1);
        if let Ok((first, second)) = array.split_at(axis, at) {
            times += usize::from(count(first) + count(second) > 0);
        }
        assert!(whole.places.iter().all(|place| usize::from(items[*place]) == times), "{plain:?}: {times}");
        assert_eq!(items.iter().map(|item| usize::from(*item)).sum::<usize>(), times * whole.places.len());
    }
}

/// Three rows of two over eight items, by the strides 2 and 3: the places 0 3 2 5 4 7. They are distinct, and break the no-alias rule.
fn interleaved(items: &mut [u8; 8]) -> ArrayViewMut<'_, u8, Ix2> {
    let view = |mode| Strided::from_parts(0, Ix2(3, 2), Ix2(2, 3), 1, 8, mode);
    assert!(view(OwnedMutable).is_err());
    ArrayViewMut::new(view(ReadOnly).expect("a view of eight items"), items)
}

/// The items of `interleaved` after a call that writes 1 to 6 in row-major order.
fn written(call: impl FnOnce(ArrayViewMut<'_, u8, Ix2>)) -> [u8; 8] {
    let mut items = [0; 8];
    call(interleaved(&mut items));
    items
}

#[test]
fn items_at_distinct_places_are_lent_though_the_rule_is_broken() {
    let in_order = [1, 0, 3, 2, 5, 4, 0, 6];
    let columns = [s![.., 0], s![.., 1]];
    let write = |items: &mut dyn Iterator<Item = &mut u8>| items.zip(1..).for_each(|(item, number)| *item = number);
    assert_eq!(written(|array| write(&mut array.into_items())), in_order);
    assert_eq!(written(|mut array| write(&mut array.iter_mut())), in_order);
    assert_eq!(
        written(|mut array| array.iter_mut().rev().zip(1..).for_each(|(item, number)| *item = 7 - number)),
        in_order
    );
    assert_eq!(
        written(|mut array| {
            for (column, first) in array.multi_slice_mut(&columns).expect("two columns").iter_mut().zip(1..) {
                column.iter_mut().zip(0..).for_each(|(item, number)| *item = first + 2 * number);
            }
        }),
        in_order
    );
    assert_eq!(
        written(|array| {
            let parts = array.multi_slice_move::<_, Ix1>(&columns).expect("two columns");
            parts.into_iter().zip(1..).for_each(|(mut column, number)| column.fill(number));
        }),
        [1, 0, 1, 2, 1, 2, 0, 2]
    );
}

#[test]
fn blocks_that_interleave_are_lent_in_order() {
    let view = Strided::from_parts(0, IxDyn(&[2, 3, 2]), IxDyn(&[6, 4, 1]), 1, 16, ReadOnly).expect("a view");
    assert_lent(view, 16, &[0, 1, 4, 5, 8, 9, 6, 7, 10, 11, 14, 15], 4);
}

#[test]
fn random_numbers_make_a_part_if_and_only_if_each_index_has_an_item() {
    let mut numbers = Numbers::new(1_900_001);
    let (mut made, mut refused, mut past_the_rule) = (0, 0, 0);
    for _ in 0..6_000 {
        let axes = numbers.below(4);
        let lens: Vec<usize> = (0..axes).map(|_| numbers.below(4)).collect();
        let strides: Vec<usize> = lens.iter().map(|_| unsigned(numbers.below(13) as isize - 6)).collect();
        let (start, len) = (numbers.below(40), numbers.below(40));
        let Ok(view) = Strided::from_parts(start, IxDyn(&lens), IxDyn(&strides), 1, 99, ReadOnly) else {
            continue;
        };
        let places: Vec<usize> = view.iter_places(ndarray_layout::Order::RowMajor).collect();
        let distinct: BTreeSet<usize> = places.iter().copied().collect();
        let fits = places.iter().all(|place| *place < len);
        let owned = view.duplicate().expect("memory").moved_to(start, 1, len, OwnedMutable).is_ok();
        let is_part = is_made(Ok(view.duplicate().expect("memory")), len);
        assert_eq!(is_part, fits && distinct.len() == places.len(), "{view:?}");
        assert!(is_part || !owned);
        *(if is_part { &mut made } else { &mut refused }) += 1;
        if is_part && !places.is_empty() {
            past_the_rule += usize::from(!owned);
            assert_lent(view, len, &places, numbers.below(places.len()));
        }
    }
    assert!(made > 300 && refused > 300 && past_the_rule > 20, "{made} {refused} {past_the_rule}");
}

/// Asserts that the items that an array lends are those at places, from each end and past some.
fn assert_lent(view: Strided<IxDyn>, len: usize, places: &[usize], skipped: usize) {
    let mut items: Vec<usize> = (0..len).collect();
    let mut array = ArrayViewMut::new(view, &mut items);
    assert!(array.iter_mut().eq(places));
    assert!(array.iter_mut().rev().eq(places.iter().rev()));
    let (mut lent, mut left) = (array.iter_mut(), places.iter());
    assert_eq!((lent.next_back().as_deref(), lent.nth(skipped).as_deref()), (left.next_back(), left.nth(skipped)));
    assert_eq!(lent.len(), left.len());
    assert_eq!(lent.fold(0, |sum, item| 3 * sum + *item), left.fold(0, |sum, place| 3 * sum + place));
    array.map_in_place(|item| *item += 100);
    assert!(array.iter().eq(&places.iter().map(|place| place + 100).collect::<Vec<_>>()));
    assert_eq!(items.iter().filter(|item| **item >= 100).count(), places.len());
}
