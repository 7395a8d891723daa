//! Parts of random slices of random arrays beside the model.

use crate::iterated::iterates;
use crate::kind;
use crate::model::{Picked, Plain, index_of};
use crate::numbers::Numbers;
use ndarray_layout::{
    ArrayViewMut, Axis, ErrorKind, Ix1, Ix2, Ix3, IxDyn, LayoutError, Lengths, SliceArg, SliceInfo, SliceInfoElem,
    Strided, Strides, unsigned,
};
use std::collections::BTreeSet;
use std::fmt::Debug;

const CALLS: usize = 8_000;

pub fn dimension<D: Lengths>(numbers: impl Iterator<Item = usize>) -> D {
    let numbers: Vec<usize> = numbers.collect();
    let mut dim = D::zeros(numbers.len()).expect("memory for a few numbers");
    dim.slice_mut().copy_from_slice(&numbers);
    dim
}

/// Items as the array of a layout.
pub fn array<'a, T, D: Lengths>(plain: &Plain, items: &'a mut [T]) -> ArrayViewMut<'a, T, D> {
    let dim = dimension(plain.shape.iter().copied());
    let strides = dimension(plain.strides.iter().map(|stride| unsigned(*stride)));
    let mode = ndarray_layout::CanIndexCheckMode::OwnedMutable;
    let view = Strided::from_parts(plain.start, dim, strides, 1, items.len(), mode).expect("a layout");
    ArrayViewMut::over(view, items).expect("room for the layout")
}

/// A range of an axis with a step, from a bound to another.
fn strip(numbers: &mut Numbers, start: usize, end: usize) -> SliceInfoElem {
    let step = numbers.pick(&[1, 1, 1, 2, -1, -1, -3]);
    SliceInfoElem::Slice { start: start as isize, end: Some(end as isize), step }
}

/// Tiles that share no item: each axis is cut at a few coordinates. Seldom one of an axis is an index.
fn tiles(numbers: &mut Numbers, shape: &[usize]) -> Vec<Vec<SliceInfoElem>> {
    let mut tiles = vec![Vec::new()];
    for len in shape {
        let mut bounds: Vec<usize> = (0..numbers.below(3)).map(|_| numbers.below(len + 1)).collect();
        bounds.extend([0, *len]);
        bounds.sort_unstable();
        let mut longer = Vec::new();
        for pair in bounds.windows(2) {
            let is_index = pair[0] < pair[1] && numbers.once_in(6);
            let elem = if is_index { SliceInfoElem::Index(pair[0] as isize) } else { strip(numbers, pair[0], pair[1]) };
            longer.extend(tiles.iter().map(|tile: &Vec<_>| [&tile[..], &[elem]].concat()));
        }
        tiles = longer;
    }
    tiles.truncate(12);
    tiles
}

/// Every so many coordinates of the last axis, from each of the first ones on: as the planes of a picture.
fn planes(numbers: &mut Numbers, shape: &[usize]) -> Vec<Vec<SliceInfoElem>> {
    let step = 1 + numbers.below(3);
    let plane = |first: usize| {
        let mut elems = vec![SliceInfoElem::from(..); shape.len() - 1];
        let last = shape[shape.len() - 1];
        elems.push(SliceInfoElem::Slice { start: first.min(last) as isize, end: None, step: step as isize });
        elems
    };
    (0..step).map(plane).collect()
}

/// Slices of a shape: mostly some that share no item, in any order; a slice more that may share one, or doesn't fit.
pub fn slices(numbers: &mut Numbers, shape: &[usize]) -> Vec<Vec<SliceInfoElem>> {
    let mut slices =
        if shape.is_empty() || numbers.once_in(2) { tiles(numbers, shape) } else { planes(numbers, shape) };
    let order = numbers.axis_order(slices.len());
    if numbers.once_in(2) {
        slices = order.into_iter().map(|at| slices[at].clone()).collect();
    }
    if numbers.once_in(8) {
        slices.push(shape.iter().map(|len| SliceInfoElem::Index(numbers.below(len + 1) as isize)).collect());
    }
    if numbers.once_in(8) {
        let at = numbers.below(shape.len() + 1);
        slices
            .iter_mut()
            .filter(|slice| slice.len() == shape.len())
            .for_each(|slice| slice.insert(at, SliceInfoElem::NewAxis));
    }
    slices
}

/// What the slices pick, or why they aren't lent.
pub fn model(plain: &Plain, slices: &[Vec<SliceInfoElem>]) -> Result<Vec<Picked>, ErrorKind> {
    let picked: Option<Vec<Picked>> = slices.iter().map(|slice| plain.picked(slice)).collect();
    let picked = picked.ok_or(ErrorKind::OutOfBounds)?;
    let mut seen = BTreeSet::new();
    let is_shared = picked.iter().flat_map(|part| &part.places).any(|place| !seen.insert(*place));
    if is_shared { Err(ErrorKind::Unsupported) } else { Ok(picked) }
}

/// Asserts that a part has these items, each by its index.
fn has_items<T: PartialEq + Debug, E: Lengths>(
    part: &ArrayViewMut<'_, T, E>,
    picked: &Picked,
    item: impl Fn(usize) -> T,
) {
    assert_eq!((part.dim().slice(), part.len()), (&picked.shape[..], picked.places.len()));
    for (number, place) in picked.places.iter().enumerate() {
        let index: E = dimension(index_of(&picked.shape, number).into_iter());
        assert_eq!(part.get(&index), Some(&item(*place)), "{:?} of {picked:?}", index.slice());
    }
    for axis in 0..picked.shape.len() {
        let past = (0..picked.shape.len()).map(|other| if other == axis { picked.shape[axis] } else { 0 });
        assert_eq!(part.get(&dimension::<E>(past)), None);
    }
}

/// Asserts that the two parts of a part along an axis are those of its places.
fn splits<T: PartialEq + Debug, E: Lengths>(
    part: ArrayViewMut<'_, T, E>,
    picked: &Picked,
    (axis, at): (usize, usize),
    item: impl Fn(usize) -> T,
) {
    let (first, second) = part.split_at(Axis(axis), at).expect("an axis");
    for (half, is_first) in [(first, true), (second, false)] {
        let mut shape = picked.shape.clone();
        shape[axis] = if is_first { at } else { shape[axis] - at };
        let numbered = picked.places.iter().enumerate();
        let own = numbered.filter(|(number, _)| (index_of(&picked.shape, *number)[axis] < at) == is_first);
        has_items(&half, &Picked { shape, places: own.map(|(_, place)| *place).collect() }, &item);
    }
}

/// Asserts that slices of an array are lent as the model says, and that each item is written once.
fn compare<T, D, S>(
    plain: &Plain,
    slices: &[S],
    expected: &Result<Vec<Picked>, ErrorKind>,
    item: impl Fn(usize) -> T,
    seed: usize,
) where
    T: Clone + PartialEq + Debug,
    D: Lengths,
    S: SliceArg<D>,
{
    let mut items: Vec<T> = (0..plain.len).map(&item).collect();
    let mut array: ArrayViewMut<'_, T, D> = array(plain, &mut items);
    let expected = match expected {
        Ok(expected) => expected,
        Err(error) => return assert_eq!(kind(array.multi_slice_mut(slices)), Some(*error)),
    };
    for (number, picked) in expected.iter().enumerate() {
        let lend = |array: &mut ArrayViewMut<'_, T, D>| array.multi_slice_mut(slices).expect("parts").len();
        assert_eq!(lend(&mut array), expected.len());
        let mut parts = array.multi_slice_mut(slices).expect("parts");
        has_items(&parts[number], picked, &item);
        iterates(parts.swap_remove(number), picked, &item, seed + number);
        let mut parts = array.multi_slice_mut(slices).expect("parts");
        let rows = parts.swap_remove(number).into_row_slices().expect("memory");
        let in_rows: Vec<T> = rows.into_iter().flat_map(|row| row.iter().cloned()).collect();
        assert_eq!(in_rows, picked.places.iter().map(|place| item(*place)).collect::<Vec<_>>());
        if let Some(axis) = seed.checked_rem(picked.shape.len()) {
            let part = array.multi_slice_mut(slices).expect("parts").swap_remove(number);
            splits(part, picked, (axis, seed % (picked.shape[axis] + 1)), &item);
        }
    }
    for (number, mut part) in array.multi_slice_mut(slices).expect("parts").into_iter().enumerate() {
        part.map_in_place(|written| *written = item(100 + number));
    }
    for (number, picked) in expected.iter().enumerate() {
        assert!(picked.places.iter().all(|place| items[*place] == item(100 + number)));
    }
}

/// The slices as arguments for a type that fixes the count of axes.
fn typed<D: Lengths>(
    slices: &[Vec<SliceInfoElem>],
) -> Result<Vec<SliceInfo<Vec<SliceInfoElem>, D, IxDyn>>, LayoutError> {
    slices.iter().map(|slice| Ok(SliceInfo::try_from(slice.clone())?)).collect()
}

/// Compares a call at a type for just as many axes.
fn compare_typed(plain: &Plain, slices: &[Vec<SliceInfoElem>], expected: &Result<Vec<Picked>, ErrorKind>, seed: usize) {
    let list = |place: usize| vec![place; place % 2 + 1];
    match plain.shape.len() {
        1 => compare::<_, Ix1, _>(plain, &typed(slices).expect("slices of one axis"), expected, list, seed),
        2 => compare::<_, Ix2, _>(plain, &typed(slices).expect("slices of two axes"), expected, list, seed),
        3 => compare::<_, Ix3, _>(plain, &typed(slices).expect("slices of three axes"), expected, list, seed),
        _ => {}
    }
}

#[test]
fn parts_of_random_slices_are_the_models() {
    let mut numbers = Numbers::new(1_700_001);
    let (mut lent, mut shared, mut past) = (0, 0, 0);
    for _ in 0..CALLS {
        let plain = Plain::any(&mut numbers);
        let slices = slices(&mut numbers, &plain.shape);
        let expected = model(&plain, &slices);
        match expected {
            Ok(_) => lent += 1,
            Err(ErrorKind::Unsupported) => shared += 1,
            Err(_) => past += 1,
        }
        let seed = numbers.below(1000);
        let elems: Vec<&[SliceInfoElem]> = slices.iter().map(Vec::as_slice).collect();
        compare::<u8, IxDyn, _>(&plain, &elems, &expected, |place| place as u8, seed);
        compare_typed(&plain, &slices, &expected, seed);
    }
    println!("{lent} lists of slices lent, {shared} share an item, {past} are past the shape");
    assert!(lent > CALLS / 2 && shared > 100 && past > 100);
    assert!(matches!(ndarray_layout::StrideShape::from(Ix1(1)).strides, Strides::C));
}
