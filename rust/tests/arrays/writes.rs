//! Arrays that are lent again, and written by slices and beside others.

use crate::layouts::{Layout, rounds};
use crate::numbers::Numbers;
use crate::{NUMBERS, kind, of_count, owned, rows, rows_mut, texts};
use ndarray_layout::ErrorKind::IncompatibleShape;
use ndarray_layout::{ArrayView, Axis, Ix1, Ix2, IxDyn, LayoutError, Order, OwnedArray, StrideShape, Strides};
use std::cell::Cell;
use std::panic::{AssertUnwindSafe, catch_unwind};
use std::rc::Rc;

#[test]
fn an_array_is_lent_again_in_a_loop() -> Result<(), LayoutError> {
    let mut numbers = NUMBERS;
    let mut array = rows_mut(&mut numbers);
    for column in 0..3 {
        array.view_mut().index_axis(Axis(1), column)?.fill(column as u8);
        array.index_axis_mut(Axis(1), column)?.iter_mut().for_each(|item| *item += 10);
    }
    assert_eq!(array.view().reversed_axes().to_vec()?, [10, 10, 11, 11, 12, 12]);
    let mut array = owned(texts());
    for row in 0..2 {
        array.view_mut().index_axis(Axis(0), row)?.map_in_place(|text| text.push('a'));
    }
    assert_eq!(array.view().last().map(String::as_str), Some("5a"));
    assert_eq!(array.into_stored().concat(), "0a1a2a3a4a5a6");
    Ok(())
}

#[test]
fn slices_of_an_array_are_written() {
    let mut list = texts();
    let mut array = rows_mut(&mut list);
    array.as_slice_mut().unwrap().swap(0, 1);
    array.first_mut().unwrap().push('a');
    array.last_mut().unwrap().push('b');
    assert!(array.view_mut().reversed_axes().as_slice_mut().is_none());
    array.view_mut().reversed_axes().as_slice_memory_order_mut().unwrap()[2].push('d');
    array[(1, 0)].push('e');
    assert_eq!(array.into_slice().map(|slice| slice.len()).ok(), Some(6));
    assert_eq!(list, ["1a", "0", "2d", "3e", "4", "5b", "6"]);
    let mut array = owned(NUMBERS.to_vec());
    array.as_slice_mut().unwrap().reverse();
    *array.first_mut().unwrap() = 50;
    assert_eq!(array.into_stored(), [50, 4, 3, 2, 1, 0, 6]);
}

#[test]
fn an_array_that_owns_its_items_is_filled_assigned_and_taken_apart() {
    let mut array = owned(NUMBERS.to_vec());
    assert!(array.swap(&(0, 0), &(1, 2)) && !array.swap(&(0, 0), &(2, 0)));
    assert_eq!(array.stored(), [5, 1, 2, 3, 4, 0, 6]);
    assert_eq!(kind(array.assign(&rows(&NUMBERS).reversed_axes())), Some(IncompatibleShape));
    array.assign(&rows(&[9, 8, 7, 6, 5, 4])).unwrap();
    assert_eq!(array.stored(), [9, 8, 7, 6, 5, 4, 6]);
    array.fill(1);
    assert_eq!(array.into_iter().collect::<Vec<_>>(), [1; 6]);
    assert!(owned(texts()).into_iter().eq(["0", "1", "2", "3", "4", "5"]));
}

#[test]
fn items_that_are_handed_out_are_the_models() {
    rounds(2_000, 17, |numbers| {
        let shape: Vec<usize> = (0..numbers.below(4)).map(|_| numbers.below(5)).collect();
        let strides = if numbers.once_in(2) { Strides::C } else { Strides::F };
        let spare = numbers.below(3);
        let items: Vec<String> = (0..shape.iter().product::<usize>() + spare).map(|place| place.to_string()).collect();
        let array = OwnedArray::from_shape_vec(StrideShape { dim: IxDyn(&shape), strides }, items);
        let array = array.unwrap_or_else(|_| panic!("as many items"));
        let expected = array.to_vec().unwrap();
        assert!(array.into_iter().eq(expected), "{shape:?}");
    });
}

#[test]
fn an_array_without_items_has_no_first_one() {
    let mut none = [0_u8; 0];
    let mut array = ndarray_layout::ArrayViewMut::from_shape(Ix2(0, 3), &mut none).unwrap();
    assert!(array.first_mut().is_none() && array.last_mut().is_none());
    assert_eq!(array.as_slice_mut().map(|slice| slice.len()), Some(0));
    assert!(array.first().is_none() && array.last().is_none() && array.iter_mut().next().is_none());
    assert_eq!(array.rows_mut().len(), 0);
    assert_eq!(array.as_slice_memory_order(), Some(&[][..]));
}

#[test]
fn two_arrays_are_gone_over_side_by_side() {
    let (mut list, numbers) = (texts(), NUMBERS);
    let mut array = rows_mut(&mut list);
    array.zip_mut_with(&rows(&numbers), |text, number| text.push_str(&number.to_string())).unwrap();
    let row = ArrayView::from_shape(Ix1(3), &["a", "b", "c"]).unwrap();
    let row = row.broadcast(&Ix2(2, 3)).unwrap();
    array.zip_mut_with(&row, |text, other| text.push_str(other)).unwrap();
    let turned = rows(&numbers).reversed_axes();
    assert_eq!(kind(array.zip_mut_with(&turned, |_, _| panic!("called"))), Some(IncompatibleShape));
    assert_eq!(list, ["00a", "11b", "22c", "33a", "44b", "55c", "6"]);
}

#[test]
fn pairs_of_items_are_the_models() {
    rounds(20_000, 12, |numbers| {
        let layout = Layout::random(numbers);
        let mut other = if numbers.once_in(2) { Layout::random(numbers) } else { layout.clone() };
        other.shape.clone_from(&layout.shape);
        other.strides = layout.shape.iter().map(|_| numbers.between(0, 3)).collect();
        (other.start, other.count) = (0, 1 + 4 * 3 * layout.shape.iter().sum::<usize>());
        let mut items: Vec<usize> = (0..layout.count).collect();
        let mut expected = items.clone();
        let mut pairs = Vec::new();
        for (place, other) in layout.places().into_iter().zip(other.places()) {
            pairs.push((place, other));
            expected[place] = 1000 + other;
        }
        let others: Vec<usize> = (0..other.count).collect();
        let mut found = Vec::new();
        let write = |item: &mut usize, other: &usize| {
            found.push((*item, *other));
            *item = 1000 + other;
        };
        layout.array_mut(&mut items).zip_mut_with(&other.array(&others), write).unwrap();
        // (in the order of the places, which is another one than that of the indices)
        found.sort_unstable();
        pairs.sort_unstable();
        assert_eq!((found, items), (pairs, expected), "{layout:?} beside {other:?}");
    });
}

/// A layout of the shape of another one, in which indices may share an item.
fn beside(layout: &Layout, numbers: &mut Numbers) -> Layout {
    let strides: Vec<isize> = layout.shape.iter().map(|_| numbers.between(-3, 4)).collect();
    let reach = |sign: isize| -> usize {
        let steps = strides.iter().zip(&layout.shape).filter(|(stride, _)| **stride * sign > 0);
        steps.map(|(stride, len)| stride.unsigned_abs() * len.saturating_sub(1)).sum()
    };
    let start = reach(-1) + numbers.below(3);
    Layout { shape: layout.shape.clone(), start, count: start + reach(1) + 1, strides }
}

#[test]
fn items_that_are_written_and_compared_beside_others_are_the_models() {
    rounds(20_000, 23, |numbers| {
        let layout = Layout::random(numbers);
        let other = match numbers.below(3) {
            0 => layout.clone(),
            _ => beside(&layout, numbers),
        };
        let others: Vec<usize> = (0..other.count).collect();
        let mut items: Vec<usize> = (0..layout.count).collect();
        let (mut expected, mut assigned) = (items.clone(), items.clone());
        for (turn, (place, from)) in layout.places().into_iter().zip(other.places()).enumerate() {
            expected[place] = 1_000 * turn + from;
            assigned[place] = from;
        }
        let mut turns = 0..;
        let source = other.array(&others);
        let made = |item: &usize| 1_000 * turns.next().unwrap() + item;
        source.map_into(&mut layout.array_mut(&mut items), made).unwrap();
        assert_eq!(items, expected, "{other:?} to {layout:?}");
        let mut counted = items.clone();
        of_count!(layout.shape.len(), D => {
            let source = other.array(&others).into_dimensionality::<D>().unwrap();
            layout.array_mut(&mut counted).into_dimensionality::<D>().unwrap().assign(&source).unwrap();
        });
        layout.array_mut(&mut items).assign(&source).unwrap();
        layout.places().into_iter().for_each(|place| expected[place] = assigned[place]);
        assert_eq!((&items, counted), (&expected, expected.clone()), "{other:?} to {layout:?}");
        assert!(layout.array(&items).eq(&source) && source.eq(&layout.array(&items)), "{layout:?}");
        if let Some(place) = layout.places().last().copied() {
            items[place] += 1;
            assert!(!layout.array(&items).eq(&source) && !source.eq(&layout.array(&items)), "{layout:?}");
        }
    });
}

#[test]
fn a_list_of_the_items_is_row_major_and_has_no_spare_one() {
    for strides in [Strides::C, Strides::F] {
        let items: Vec<Rc<usize>> = (0..122).map(Rc::new).collect();
        let shape = StrideShape { dim: IxDyn(&[2, 3, 1, 5, 4, 1]), strides };
        let array = OwnedArray::from_shape_vec(shape, items.clone());
        let array = array.unwrap_or_else(|_| panic!("120 items and two spare ones"));
        let places = array.strided().places(Order::RowMajor).unwrap();
        let list = array.into_list().unwrap();
        assert!(list.iter().map(|item| **item).eq(places));
        let owners = |place| if place < 120 { 2 } else { 1 };
        assert!(items.iter().map(Rc::strong_count).eq((0..122).map(owners)));
    }
}

/// An item that counts how often it was dropped, and may panic then.
struct Counted<'a> {
    drops: &'a Cell<usize>,
    panics: bool,
}

impl Drop for Counted<'_> {
    fn drop(&mut self) {
        self.drops.set(self.drops.get() + 1);
        assert!(!self.panics, "an item that panics");
    }
}

#[test]
fn each_item_is_dropped_once_where_a_spare_one_panics() {
    let takes: [fn(OwnedArray<Counted<'_>, Ix2>); 2] =
        [|array| drop(array.into_iter()), |array| drop(array.into_list())];
    for (strides, take) in [Strides::C, Strides::F].into_iter().flat_map(|strides| takes.map(|take| (strides, take))) {
        let drops: [Cell<usize>; 9] = Default::default();
        let items = drops.iter().enumerate().map(|(place, drops)| Counted { drops, panics: place == 7 });
        let array = OwnedArray::from_shape_vec(StrideShape { dim: Ix2(2, 3), strides }, items.collect());
        let array = array.unwrap_or_else(|_| panic!("six items and three spare ones"));
        assert!(catch_unwind(AssertUnwindSafe(|| take(array))).is_err());
        assert_eq!(drops.map(Cell::into_inner), [1; 9], "{strides:?}");
    }
}
