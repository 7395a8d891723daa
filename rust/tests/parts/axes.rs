//! Parts of random arrays along an axis, from both ends, and what their layouts say, beside the list of their places.

use crate::iterated_at_random::{Check, WRITTEN, stepped, whole};
use crate::model::{Picked, Plain, index_of};
use crate::numbers::Numbers;
use crate::threads::arrays;
use crate::{kind, rows_mut};
use ndarray_layout::{ArrayViewMut, Axis, ErrorKind, Ix1, Ix2, Ix3, IxDyn, LayoutError, Lengths, RemoveAxis};
use std::thread;

/// Checks parts of random arrays of any count of axes, and at the types of two and of three axes.
fn check(seed: u64, any: Check<IxDyn>, two: Check<Ix2>, three: Check<Ix3>) {
    let mut numbers = Numbers::new(seed);
    let mut written = 0;
    for _ in 0..arrays() / 2 {
        let plain = Plain::any(&mut numbers);
        written += match plain.shape.len() {
            2 => whole(&mut numbers, &plain, two),
            3 => whole(&mut numbers, &plain, three),
            _ => 0,
        };
        written += whole(&mut numbers, &plain, any);
        written += stepped(&mut numbers, &plain, any);
    }
    assert!(written > 5 * arrays(), "{written} items");
}

impl Picked {
    /// The items at a coordinate of an axis, without the axis.
    fn at(&self, axis: usize, coordinate: usize) -> Picked {
        let mut shape = self.shape.clone();
        shape.remove(axis);
        self.seen_as(shape, |index| [&index[..axis], &[coordinate], &index[axis..]].concat())
    }

    /// The lanes along an axis, in row-major order of the other coordinates.
    fn lanes(&self, axis: usize) -> Vec<Picked> {
        let at = |coordinate| self.at(axis, coordinate).places;
        let planes: Vec<Vec<usize>> = (0..self.shape[axis]).map(at).collect();
        let lane = |number| planes.iter().map(|plane| plane[number]).collect::<Vec<usize>>();
        let lanes = (0..planes.first().map_or(0, Vec::len)).map(lane);
        lanes.map(|places| Picked { shape: vec![places.len()], places }).collect()
    }

    /// The number of each item's coordinate on an axis among groups of so many, in row-major order.
    fn groups(&self, axis: usize, size: usize) -> Vec<usize> {
        (0..self.places.len()).map(|number| index_of(&self.shape, number)[axis] / size).collect()
    }
}

/// Asserts that a part has the shape and the items of places.
fn is_picked<D: Lengths>(part: &mut ArrayViewMut<'_, usize, D>, picked: &Picked) {
    assert_eq!((part.shape(), part.len()), (&picked.shape[..], picked.places.len()));
    assert!(part.view_mut().into_items().map(|item| *item).eq(picked.places.iter().copied()), "{picked:?}");
}

/// Takes all of an iterator at both ends, as a range says, but for some that are skipped. All are in use at once.
fn taken<I>(numbers: &mut Numbers, mut left: I, count: usize) -> Vec<(usize, I::Item)>
where
    I: DoubleEndedIterator + ExactSizeIterator,
{
    let (mut expected, mut taken) = (0..count, Vec::new());
    while !expected.is_empty() {
        assert_eq!((left.len(), left.size_hint()), (expected.len(), expected.size_hint()));
        let skipped = numbers.below(3);
        let (number, come) = match numbers.below(7) {
            0..3 => (expected.next(), left.next()),
            3 | 4 => (expected.next_back(), left.next_back()),
            5 => (expected.nth(skipped), left.nth(skipped)),
            _ => (expected.nth_back(skipped), left.nth_back(skipped)),
        };
        assert_eq!(number.is_some(), come.is_some());
        taken.extend(number.zip(come));
    }
    assert!(left.len() == 0 && left.next().is_none() && left.next_back().is_none() && left.nth(1).is_none());
    taken
}

/// Writes its number in each part, and returns what is then at each item of a whole by the numbers of their groups.
fn fill_each<D: Lengths>(
    numbers: &mut Numbers,
    taken: Vec<(usize, ArrayViewMut<'_, usize, D>)>,
    picked: &Picked,
    groups: &[usize],
) -> Vec<usize> {
    let mut expected = picked.places.clone();
    for (number, _) in &taken {
        let of_group = expected.iter_mut().zip(groups).filter(|(_, group)| *group == number);
        of_group.for_each(|(item, _)| *item = WRITTEN + number);
    }
    if numbers.once_in(16) {
        thread::scope(|scope| {
            for (number, mut part) in taken {
                scope.spawn(move || part.fill(WRITTEN + number));
            }
        });
    } else {
        taken.into_iter().rev().for_each(|(number, mut part)| part.fill(WRITTEN + number));
    }
    expected
}

/// Asserts that the part at each coordinate of an axis comes, with its items.
fn coordinates_come<D: RemoveAxis>(
    numbers: &mut Numbers,
    part: ArrayViewMut<'_, usize, D>,
    picked: &Picked,
) -> Vec<usize> {
    let (mut part, axis) = (part, numbers.below(picked.shape.len() + 1));
    let Some(len) = picked.shape.get(axis) else {
        assert_eq!(kind(part.axis_iter_mut(Axis(axis))), Some(ErrorKind::OutOfBounds));
        return picked.places.clone();
    };
    let left = if axis == 0 { part.outer_iter_mut() } else { part.axis_iter_mut(Axis(axis)) };
    let mut taken = taken(numbers, left.expect("an axis"), *len);
    taken.iter_mut().for_each(|(number, part)| is_picked(part, &picked.at(axis, *number)));
    fill_each(numbers, taken, picked, &picked.groups(axis, 1))
}

#[test]
fn each_coordinate_of_an_axis_of_random_parts_has_a_part() {
    check(1_990_001, coordinates_come, coordinates_come, coordinates_come);
}

/// Asserts that each chunk along an axis comes, with its items.
fn chunks_come<D: Lengths>(numbers: &mut Numbers, part: ArrayViewMut<'_, usize, D>, picked: &Picked) -> Vec<usize> {
    let (mut part, axis) = (part, numbers.below(picked.shape.len() + 1));
    let size = if numbers.once_in(8) { numbers.pick(&[0, usize::MAX]) } else { 1 + numbers.below(4) };
    let error = match picked.shape.get(axis) {
        None => Some(ErrorKind::OutOfBounds),
        Some(_) => (size == 0).then_some(ErrorKind::Unsupported),
    };
    if error.is_some() {
        assert_eq!(kind(part.axis_chunks_iter_mut(Axis(axis), size)), error);
        return picked.places.clone();
    }
    let len = picked.shape[axis];
    let left = part.axis_chunks_iter_mut(Axis(axis), size).expect("an axis");
    let mut taken = taken(numbers, left, len.div_ceil(size));
    for (number, part) in &mut taken {
        let (_, others) = picked.split(axis, *number * size);
        is_picked(part, &others.split(axis, size.min(others.shape[axis])).0);
    }
    fill_each(numbers, taken, picked, &picked.groups(axis, size))
}

#[test]
fn each_chunk_along_an_axis_of_random_parts_comes() {
    check(1_991_001, chunks_come, chunks_come, chunks_come);
}

/// Asserts that each lane along an axis comes, with its items.
fn lanes_come<D: Lengths>(numbers: &mut Numbers, part: ArrayViewMut<'_, usize, D>, picked: &Picked) -> Vec<usize> {
    let (mut part, axis) = (part, numbers.below(picked.shape.len() + 1));
    if axis == picked.shape.len() {
        assert!(part.lanes_mut(Axis(axis)).is_err());
        return picked.places.clone();
    }
    let lanes = picked.lanes(axis);
    let mut taken = taken(numbers, part.lanes_mut(Axis(axis)).expect("an axis"), lanes.len());
    taken.iter_mut().for_each(|(number, part)| is_picked(part, &lanes[*number]));
    let of_lane = |place: &usize| lanes.iter().position(|lane| lane.places.contains(place)).expect("a lane");
    let groups: Vec<usize> = picked.places.iter().map(of_lane).collect();
    fill_each(numbers, taken, picked, &groups)
}

#[test]
fn each_lane_along_an_axis_of_random_parts_comes() {
    check(1_994_001, lanes_come, lanes_come, lanes_come);
}

/// Asserts that a coordinate of an axis is lent, and the part again after it.
fn coordinate_is_lent<D: RemoveAxis>(
    numbers: &mut Numbers,
    part: ArrayViewMut<'_, usize, D>,
    picked: &Picked,
) -> Vec<usize> {
    let (mut part, axis) = (part, numbers.below(picked.shape.len() + 1));
    let len = picked.shape.get(axis).copied().unwrap_or_default();
    assert_eq!(kind(part.index_axis_mut(Axis(axis), len)), Some(ErrorKind::OutOfBounds));
    is_picked(&mut part, picked);
    if len == 0 {
        return picked.places.clone();
    }
    let at = numbers.below(len);
    let mut one = part.index_axis_mut(Axis(axis), at).expect("a coordinate");
    is_picked(&mut one, &picked.at(axis, at));
    one.fill(WRITTEN);
    part.map_in_place(|item| *item += 1);
    let expected = picked.places.iter().zip(picked.groups(axis, 1));
    expected.map(|(place, group)| if group == at { WRITTEN + 1 } else { place + 1 }).collect()
}

#[test]
fn a_coordinate_of_random_parts_is_lent_and_the_part_again() {
    check(1_992_001, coordinate_is_lent, coordinate_is_lent, coordinate_is_lent);
}

/// Asserts that the layout says what the shape and the places do, and that no other type of the dimension changes it.
fn layout_is_told<D: Lengths>(_: &mut Numbers, part: ArrayViewMut<'_, usize, D>, picked: &Picked) -> Vec<usize> {
    let shape = &picked.shape;
    assert_eq!((part.ndim(), part.shape()), (shape.len(), &shape[..]));
    let place = |axis: usize| picked.at(axis, 1).places[0] as isize - picked.places[0] as isize;
    let longer = |axis: &usize| shape[*axis] > 1 && !picked.places.is_empty();
    (0..shape.len()).for_each(|axis| assert_eq!(part.len_of(Axis(axis)), shape[axis]));
    (0..shape.len()).filter(longer).for_each(|axis| assert_eq!(part.stride_of(Axis(axis)), place(axis)));
    let follows = |pair: &[usize]| pair[1].wrapping_sub(pair[0]) == 1;
    assert_eq!(part.is_standard_layout(), picked.places.windows(2).all(follows), "{picked:?}");
    let strides: Vec<isize> = (0..shape.len()).map(|axis| part.stride_of(Axis(axis))).collect();
    let mut part = part.into_dyn();
    (0..shape.len()).for_each(|axis| assert_eq!(part.stride_of(Axis(axis)), strides[axis]));
    (0..shape.len()).filter(longer).for_each(|axis| assert_eq!(part.stride_of(Axis(axis)), place(axis)));
    is_picked(&mut part, picked);
    if shape.len() != 1 {
        assert_eq!(kind(part.view_mut().into_dimensionality::<Ix1>()), Some(ErrorKind::IncompatibleShape));
    }
    let mut part = part.into_dimensionality::<D>().expect("as many axes");
    is_picked(&mut part, picked);
    picked.places.clone()
}

#[test]
fn layouts_of_random_parts_are_told_and_have_each_type() {
    check(1_993_001, layout_is_told, layout_is_told, layout_is_told);
}

#[test]
fn lists_are_written_along_an_axis_that_interleaves() -> Result<(), LayoutError> {
    let mut lists = crate::lists();
    let mut part = rows_mut(&mut lists);
    let mut left = part.axis_iter_mut(Axis(1))?;
    let (Some(mut last), Some(mut first)) = (left.next_back(), left.next()) else {
        panic!("three columns");
    };
    assert_eq!(format!("{left:?}"), "Parts { left: 1, .. }");
    first[0].append(&mut last[1]);
    let mut left = part.axis_chunks_iter_mut(Axis(1), 2)?;
    left.next_back().expect("the last column").fill(vec![9]);
    assert_eq!(format!("{left:?}"), "Parts { left: 1, .. }");
    left.next().expect("two columns")[(1, 1)].clear();
    assert_eq!(lists, [&[0, 5][..], &[1], &[9], &[3], &[], &[9], &[6]]);
    Ok(())
}

#[test]
#[should_panic(expected = "an array without axes has no outer arrays")]
fn a_part_without_axes_has_no_outer_parts() {
    let mut items = [7];
    let mut part = ArrayViewMut::from_shape(IxDyn(&[]), &mut items).expect("one item");
    let _ = part.outer_iter_mut();
}
