//! Parts of random arrays that are iterated by items and by rows, or lent again, beside the list of their places.

use crate::model::{Picked, Plain, index_of};
use crate::numbers::Numbers;
use crate::random::{array, dimension};
use crate::steps::step;
use crate::threads::arrays;
use ndarray_layout::{
    ArrayViewMut, Dimension, Ix0, Ix1, Ix2, Ix3, Ix4, Ix5, Ix6, IxDyn, LayoutError, Lengths, Order, OwnedArray, Row,
    StrideShape, Strides, signed,
};
use std::sync::Barrier;
use std::thread;

/// How many threads write at once.
const THREADS: usize = 3;

/// An item that was written is at least this; before that it is its place.
pub const WRITTEN: usize = 1_000_000;

/// Asserts that a part whose items are their places is iterated, and returns what it wrote at each of them, in row-major order.
pub type Check<D> = fn(&mut Numbers, ArrayViewMut<'_, usize, D>, &Picked) -> Vec<usize>;

/// Asserts that so much was written at the places, and nothing elsewhere. Returns how many places there are.
fn left_as_written(items: &[usize], picked: &Picked, written: &[usize]) -> usize {
    let mut expected: Vec<usize> = (0..items.len()).collect();
    assert_eq!(picked.places.len(), written.len());
    picked.places.iter().zip(written).for_each(|(place, number)| expected[*place] = *number);
    assert_eq!(items, expected, "{picked:?}");
    written.len()
}

/// Checks the part of a whole array. Returns how many items it has.
pub fn whole<D: Lengths>(numbers: &mut Numbers, plain: &Plain, check: Check<D>) -> usize {
    let (mut items, picked): (Vec<usize>, Picked) = ((0..plain.len).collect(), plain.whole());
    let written = check(numbers, array(plain, &mut items), &picked);
    left_as_written(&items, &picked, &written)
}

/// Checks what random steps leave of an array. Returns how many items that has.
pub fn stepped(numbers: &mut Numbers, plain: &Plain, check: Check<IxDyn>) -> usize {
    let mut items: Vec<usize> = (0..plain.len).collect();
    let (part, picked) = step(numbers, array(plain, &mut items), plain.whole());
    let written = check(numbers, part, &picked);
    left_as_written(&items, &picked, &written)
}

/// Checks parts of random arrays: at the type of just as many axes, and at that of any count of them.
macro_rules! check_arrays {
    ($check:ident, $seed:expr) => {
        let mut numbers = Numbers::new($seed);
        let mut written = 0;
        for _ in 0..arrays() / 2 {
            let plain = Plain::any(&mut numbers);
            written += match plain.shape.len() {
                0 => whole(&mut numbers, &plain, $check::<Ix0>),
                1 => whole(&mut numbers, &plain, $check::<Ix1>),
                2 => whole(&mut numbers, &plain, $check::<Ix2>),
                3 => whole(&mut numbers, &plain, $check::<Ix3>),
                4 => whole(&mut numbers, &plain, $check::<Ix4>),
                5 => whole(&mut numbers, &plain, $check::<Ix5>),
                _ => whole(&mut numbers, &plain, $check::<Ix6>),
            };
            written += whole(&mut numbers, &plain, $check::<IxDyn>);
            written += stepped(&mut numbers, &plain, $check::<IxDyn>);
        }
        assert!(written > 7 * arrays(), "{written} items");
    };
}

/// All that comes of an iterator, which says each time how many are left, and stays at its end.
fn all_of<I: ExactSizeIterator>(mut left: I, count: usize) -> Vec<I::Item> {
    assert_eq!((left.len(), left.size_hint()), (count, (count, Some(count))));
    let mut come = Vec::new();
    for after in (0..count).rev() {
        come.push(left.next().expect("one more"));
        assert_eq!((left.len(), left.size_hint()), (after, (after, Some(after))));
    }
    assert!(left.next().is_none() && left.next().is_none() && left.len() == 0);
    come
}

/// The places of each row along the last axis, which is of one item where there is no axis.
fn rows_of(picked: &Picked) -> Vec<&[usize]> {
    picked.places.chunks(picked.shape.last().map_or(1, |len| *len.max(&1))).collect()
}

/// Asserts that each item comes once, while all others are in use.
fn items_come_once<D: Lengths>(numbers: &mut Numbers, part: ArrayViewMut<'_, usize, D>, picked: &Picked) -> Vec<usize> {
    let mut items = all_of(part.into_items(), picked.places.len());
    assert!(items.iter().map(|item| **item).eq(picked.places.iter().copied()), "{picked:?}");
    let order = numbers.axis_order(items.len());
    order.iter().for_each(|number| *items[*number] = WRITTEN + number);
    (0..order.len()).map(|number| WRITTEN + number).collect()
}

#[test]
fn each_item_of_random_parts_comes_once_in_row_major_order() {
    check_arrays!(items_come_once, 1_970_001);
}

/// Asserts that a closure is called at each item once, in row-major order.
fn items_are_mapped<D: Lengths>(_: &mut Numbers, part: ArrayViewMut<'_, usize, D>, picked: &Picked) -> Vec<usize> {
    let (mut part, mut met) = (part, Vec::new());
    part.map_in_place(|item| {
        *item = WRITTEN + met.len();
        met.push(*item);
    });
    assert!(part.iter().eq(&met), "{picked:?}");
    met
}

/// Asserts that a closure is called at each item once, in the order in which they lie, or in row-major order past six axes.
fn items_are_mapped_as_they_lie<D: Lengths>(
    _: &mut Numbers,
    part: ArrayViewMut<'_, usize, D>,
    picked: &Picked,
) -> Vec<usize> {
    let (mut part, mut met) = (part, Vec::new());
    part.map_in_place_nearest(|item| {
        met.push(*item);
        *item += WRITTEN;
    });
    let mut places = picked.places.clone();
    if picked.shape.len() <= 6 {
        places.sort_unstable();
    }
    assert_eq!(met, places, "{picked:?}");
    picked.places.iter().map(|place| WRITTEN + place).collect()
}

/// Asserts that each item is overwritten, and no other one.
fn items_are_filled<D: Lengths>(_: &mut Numbers, part: ArrayViewMut<'_, usize, D>, picked: &Picked) -> Vec<usize> {
    let mut part = part;
    part.fill(WRITTEN);
    assert!(part.iter().all(|item| *item == WRITTEN), "{picked:?}");
    vec![WRITTEN; picked.places.len()]
}

#[test]
fn each_item_of_random_parts_is_mapped_once_or_filled() {
    check_arrays!(items_are_mapped, 2_011_001);
    check_arrays!(items_are_mapped_as_they_lie, 2_011_002);
    check_arrays!(items_are_filled, 2_011_003);
}

/// Asserts that each item is read once, while all others are, and that the part is equal to the items that lie in order.
fn items_are_read<D: Lengths>(_: &mut Numbers, part: ArrayViewMut<'_, usize, D>, picked: &Picked) -> Vec<usize> {
    let read = all_of(part.iter(), picked.places.len());
    assert!(read.into_iter().eq(&picked.places), "{picked:?}");
    let shape = StrideShape { dim: dimension::<D>(picked.shape.iter().copied()), strides: Strides::C };
    let mut in_order = OwnedArray::from_shape_vec(shape, picked.places.clone()).expect("room for the items");
    assert_eq!((part == in_order, in_order == part), (true, true));
    let is_changed = in_order.stored_mut().last_mut().map(|item| *item += 1).is_some();
    assert_eq!((part != in_order, in_order != part), (is_changed, is_changed));
    picked.places.clone()
}

#[test]
fn each_item_of_random_parts_is_read_once_in_row_major_order() {
    check_arrays!(items_are_read, 1_970_017);
}

/// Asserts that what is left after some items is what a fold, a count, a skip or the last one sees.
fn some_items_come<D: Lengths>(numbers: &mut Numbers, part: ArrayViewMut<'_, usize, D>, picked: &Picked) -> Vec<usize> {
    let begun = numbers.below(picked.places.len() + 1);
    let mut part = part;
    let left = |part: &mut ArrayViewMut<'_, usize, D>| -> Vec<usize> {
        let mut left = part.reborrow().expect("memory for a view").into_items();
        left.by_ref().take(begun).for_each(drop);
        left.map(|item| *item).collect()
    };
    assert_eq!(left(&mut part), picked.places[begun..]);
    let again = || picked.places.iter().copied();
    assert_eq!(part.view_mut().into_items().nth(begun).copied(), again().nth(begun));
    assert_eq!(part.view_mut().into_items().last().copied(), again().last());
    assert_eq!(part.view_mut().into_items().count(), picked.places.len());
    assert_eq!(part.rows_mut().count(), rows_of(picked).len());
    again().collect()
}

#[test]
fn what_is_left_of_random_parts_comes_however_it_is_asked_for() {
    check_arrays!(some_items_come, 1_971_001);
}

/// Asserts that each row comes once, as that of the view, while all others are in use.
fn rows_come_once<D: Lengths>(numbers: &mut Numbers, part: ArrayViewMut<'_, usize, D>, picked: &Picked) -> Vec<usize> {
    let expected: Vec<Row> = part.strided().rows(Order::RowMajor).collect();
    let places = rows_of(picked);
    assert_eq!(expected.len(), places.len());
    let mut rows = all_of(part.into_rows(), expected.len());
    for ((row, expected), places) in rows.iter().zip(expected).zip(places) {
        let (view, len) = (row.strided(), row.dim()[0]);
        assert_eq!(
            (view.start(), signed(view.strides()[0]), len),
            (expected.start, expected.stride, expected.len),
            "{picked:?}"
        );
        assert!((0..len).map(|at| row[at]).eq(places.iter().copied()), "{picked:?}");
    }
    for number in numbers.axis_order(rows.len()) {
        rows[number].fill(WRITTEN + number);
    }
    let filled = rows_of(picked).into_iter().zip(WRITTEN..);
    filled.flat_map(|(places, number)| vec![number; places.len()]).collect()
}

#[test]
fn each_row_of_random_parts_comes_once_as_that_of_the_view() {
    check_arrays!(rows_come_once, 1_972_001);
}

/// Writes a row in one of the ways that there are.
fn write_row(mut row: ArrayViewMut<'_, usize, Ix1>, places: &[usize], number: usize) {
    match number % 4 {
        0 => row.fill(WRITTEN + number),
        1 => row.into_items().for_each(|item| *item = WRITTEN + number),
        2 => (0..places.len()).for_each(|at| assert_eq!(row.replace(&at, WRITTEN + number), Ok(places[at]))),
        _ => {
            for mut whole in row.rows_mut() {
                (0..places.len()).for_each(|at| whole[at] += WRITTEN + number - places[at]);
            }
        }
    }
}

/// Lets threads write rows, all at the same time.
fn threads_write<D: Lengths>(numbers: &mut Numbers, part: ArrayViewMut<'_, usize, D>, picked: &Picked) -> Vec<usize> {
    let together = Barrier::new(THREADS);
    let mut shares: [Vec<(usize, ArrayViewMut<'_, usize, Ix1>)>; THREADS] = Default::default();
    for numbered in part.into_rows().enumerate() {
        shares[numbers.below(THREADS)].push(numbered);
    }
    let rows = rows_of(picked);
    thread::scope(|scope| {
        for share in shares {
            let (together, rows) = (&together, &rows);
            scope.spawn(move || {
                together.wait();
                share.into_iter().for_each(|(number, row)| write_row(row, rows[number], number));
            });
        }
    });
    rows.iter().zip(WRITTEN..).flat_map(|(places, number)| vec![number; places.len()]).collect()
}

#[test]
fn threads_write_rows_of_random_parts_at_once() {
    check_arrays!(threads_write, 1_973_001);
}

/// Keeps some rows while the later ones are written, and writes them in the end.
fn rows_are_kept<D: Lengths>(numbers: &mut Numbers, part: ArrayViewMut<'_, usize, D>, picked: &Picked) -> Vec<usize> {
    let rows = rows_of(picked);
    let mut kept = Vec::new();
    let mut left = part.into_rows();
    for (number, places) in rows.iter().enumerate() {
        let row = left.next().expect("a row");
        if numbers.once_in(3) {
            kept.push((number, row));
        } else {
            write_row(row, places, number);
        }
        for (number, row) in &kept {
            assert!((0..row.len()).map(|at| row[at]).eq(rows[*number].iter().copied()), "{picked:?}");
        }
    }
    drop(left);
    kept.into_iter().for_each(|(number, row)| write_row(row, rows[number], number));
    rows.iter().zip(WRITTEN..).flat_map(|(places, number)| vec![number; places.len()]).collect()
}

#[test]
fn a_row_of_random_parts_is_kept_while_later_ones_are_written() {
    check_arrays!(rows_are_kept, 1_974_001);
}

/// Lends a part again, twice over, and uses it afterwards.
fn lends_again<D: Lengths>(numbers: &mut Numbers, part: ArrayViewMut<'_, usize, D>, picked: &Picked) -> Vec<usize> {
    let (mut part, count) = (part, picked.places.len());
    let indices: Vec<D> = (0..count).map(|number| dimension(index_of(&picked.shape, number).into_iter())).collect();
    let view = part.strided().duplicate().expect("memory for a view");
    let mut again = part.reborrow().expect("memory for a view");
    assert_eq!(again.strided(), &view);
    assert!(again.reborrow().is_ok_and(|third| third.into_items().map(|item| *item).eq(picked.places.iter().copied())));
    again.reborrow().expect("memory for a view").into_items().zip(WRITTEN..).for_each(|(item, number)| *item = number);
    assert!(indices.iter().zip(WRITTEN..).all(|(index, number)| again.get(index) == Some(&number)));
    let one = numbers.below(count + 1);
    indices.get(one).into_iter().for_each(|index| assert!(again.set(index, 2 * WRITTEN)));
    assert_eq!(part.strided(), &view);
    let other = numbers.below(count + 1);
    indices.get(other).into_iter().for_each(|index| assert!(part.set(index, 3 * WRITTEN)));
    let mut written: Vec<usize> = (WRITTEN..).take(count).collect();
    for (at, number) in [(one, 2), (other, 3)] {
        written.get_mut(at).into_iter().for_each(|item| *item = number * WRITTEN);
    }
    assert!(indices.iter().zip(&written).all(|(index, number)| part.get(index) == Some(number)), "{picked:?}");
    written
}

#[test]
fn random_parts_are_lent_again_and_used_afterwards() {
    check_arrays!(lends_again, 1_975_001);
}

/// A part of a shape, of lists that own memory.
fn lists_of<D: Dimension>(lists: &mut [Vec<u8>], dim: D) -> Result<ArrayViewMut<'_, Vec<u8>, D>, LayoutError> {
    ArrayViewMut::from_shape(dim, lists)
}

#[test]
fn lists_are_written_as_items_and_in_rows() -> Result<(), LayoutError> {
    let mut lists = crate::lists();
    let mut turned = lists_of(&mut lists[..6], Ix2(2, 3))?.reversed_axes();
    for (mut row, number) in turned.rows_mut().zip(10..) {
        assert_eq!((row.dim(), row.strided().strides()), (&Ix1(2), &Ix1(3)));
        row[1].push(number);
    }
    turned.reborrow()?.into_items().skip(1).step_by(2).for_each(|list| list[0] += 20);
    assert_eq!(format!("{:?}", turned.rows_mut()), "LanesMut { left: 3, .. }");
    assert_eq!(format!("{:?}", turned.view_mut().into_items()), "IterMut { left: 6, .. }");
    assert_eq!(format!("{:?}", turned.strided().duplicate()?.into_places(Order::C)), "IntoPlaces { left: 6, .. }");
    assert_eq!(lists, [&[0][..], &[1], &[2], &[23, 10], &[24, 11], &[25, 12], &[6]]);
    Ok(())
}

#[test]
fn parts_without_axes_or_indices_have_one_row_or_none() -> Result<(), LayoutError> {
    let mut lists = crate::lists();
    let mut one = lists_of(&mut lists, Ix0())?;
    assert_eq!((one.rows_mut().len(), one.view_mut().into_items().len()), (1, 1));
    let row = one.rows_mut().next().expect("the row");
    assert_eq!((row.dim(), &row[0]), (&Ix1(1), &vec![0]));
    for dim in [Ix2(0, 3), Ix2(3, 0), Ix2(0, 0)] {
        let mut none = lists_of(&mut lists, dim)?;
        assert_eq!((none.rows_mut().len(), none.view_mut().into_items().len()), (0, 0));
        assert!(none.rows_mut().next().is_none() && none.into_items().next().is_none());
    }
    Ok(())
}
