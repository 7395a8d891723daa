//! Parts of random arrays that take the items of others, swap their own or tell their indices, beside the list of their places.

use crate::iterated_at_random::{WRITTEN, whole};
use crate::model::{Picked, Plain, index_of};
use crate::numbers::Numbers;
use crate::random::{array, dimension};
use crate::threads::arrays;
use crate::{NUMBERS, rows_mut};
use ndarray_layout::{
    ArrayView, ArrayViewMut, Dimension, ErrorKind, Ix1, Ix2, Ix3, IxDyn, LayoutError, Lengths, Zip, from_kind, s,
};

/// Asserts that each item meets that of another array, in row-major order, and returns what is written.
fn takes<D: Lengths>(numbers: &mut Numbers, part: ArrayViewMut<'_, usize, D>, picked: &Picked) -> Vec<usize> {
    let (mut part, other) = (part, Plain::of(numbers, picked.shape.clone()));
    let places = other.whole().places;
    let mut others: Vec<usize> = (WRITTEN..).take(other.len).collect();
    let others: ArrayViewMut<'_, usize, D> = array(&other, &mut others);
    let mut met = Vec::new();
    let zipped = part.zip_mut_with(&others.view(), |item, other| {
        met.push((*item, *other));
        *item += *other;
    });
    assert_eq!(zipped, Ok(()));
    assert!(met.iter().copied().eq(picked.places.iter().copied().zip(places.iter().map(|place| WRITTEN + place))));
    if numbers.once_in(2) {
        return met.iter().map(|(item, other)| item + other).collect();
    }
    assert_eq!(part.assign(&others.view()), Ok(()));
    places.iter().map(|place| WRITTEN + place).collect()
}

/// Asserts that each item meets those of two other arrays, in row-major order, and returns what is written.
fn takes_two<D: Lengths>(numbers: &mut Numbers, part: ArrayViewMut<'_, usize, D>, picked: &Picked) -> Vec<usize> {
    let (mut part, other) = (part, Plain::of(numbers, picked.shape.clone()));
    let third = Plain::of(numbers, picked.shape.clone());
    let mut others: Vec<usize> = (WRITTEN..).take(other.len).collect();
    let mut thirds: Vec<String> = (0..third.len).map(|place| place.to_string()).collect();
    let others: ArrayViewMut<'_, usize, D> = array(&other, &mut others);
    let thirds: ArrayViewMut<'_, String, D> = array(&third, &mut thirds);
    let mut met = Vec::new();
    let zipped = part.zip_mut_with_two(&others.view(), &thirds.view(), |item, other, third| {
        met.push((*item, *other, third.clone()));
        *item += other + third.len();
    });
    assert_eq!(zipped, Ok(()));
    let both = other.whole().places.into_iter().zip(third.whole().places);
    let expected =
        picked.places.iter().zip(both).map(|(place, (other, third))| (*place, WRITTEN + other, third.to_string()));
    assert!(met.iter().cloned().eq(expected), "{picked:?}");
    met.iter().map(|(item, other, third)| item + other + third.len()).collect()
}

/// Asserts that each item meets those of two to five other arrays, in row-major order, and returns what is written.
fn takes_up_to_five<D: Lengths>(
    numbers: &mut Numbers,
    part: ArrayViewMut<'_, usize, D>,
    picked: &Picked,
) -> Vec<usize> {
    let mut part = part;
    let plains: Vec<Plain> = (0..5).map(|_| Plain::of(numbers, picked.shape.clone())).collect();
    let mut items: Vec<Vec<usize>> =
        plains.iter().zip(1..).map(|(plain, number)| (number * WRITTEN..).take(plain.len).collect()).collect();
    let others: Vec<ArrayViewMut<'_, usize, D>> =
        plains.iter().zip(&mut items).map(|(plain, items)| array(plain, items)).collect();
    let [b, c, d, e, f] = [0, 1, 2, 3, 4].map(|number| others[number].view());
    let (mut met, count) = (Vec::new(), numbers.below(4) + 2);
    let zip = Zip::from(&mut part).and(&b).and(&c);
    let mut meets = |item: &mut usize, others: &[usize]| {
        met.push((*item, others.to_vec()));
        *item += others.iter().sum::<usize>();
    };
    let zipped = match count {
        2 => zip.for_each(|a, b, c| meets(a, &[*b, *c])),
        3 => zip.and(&d).for_each(|a, b, c, d| meets(a, &[*b, *c, *d])),
        4 => zip.and(&d).and(&e).for_each(|a, b, c, d, e| meets(a, &[*b, *c, *d, *e])),
        _ => zip.and(&d).and(&e).and(&f).for_each(|a, b, c, d, e, f| meets(a, &[*b, *c, *d, *e, *f])),
    };
    assert_eq!(zipped, Ok(()));
    let places: Vec<Vec<usize>> = plains[..count].iter().map(|plain| plain.whole().places).collect();
    let beside =
        |index: usize| places.iter().zip(1..).map(|(places, number)| number * WRITTEN + places[index]).collect();
    let expected = picked.places.iter().enumerate().map(|(index, place)| (*place, beside(index)));
    assert!(met.iter().cloned().eq(expected), "{picked:?}");
    met.iter().map(|(item, others)| item + others.iter().sum::<usize>()).collect()
}

/// Asserts that each item meets that of another array once, in some order, and returns what is written.
fn takes_as_they_lie<D: Lengths>(
    numbers: &mut Numbers,
    part: ArrayViewMut<'_, usize, D>,
    picked: &Picked,
) -> Vec<usize> {
    let (mut part, other) = (part, Plain::of(numbers, picked.shape.clone()));
    let mut others: Vec<usize> = (WRITTEN..).take(other.len).collect();
    let others: ArrayViewMut<'_, usize, D> = array(&other, &mut others);
    let mut met = Vec::new();
    let zipped = part.zip_mut_with_nearest(&others.view(), |item, other| {
        met.push((*item, *other));
        *item += *other;
    });
    assert_eq!(zipped, Ok(()));
    let places = other.whole().places.into_iter().map(|place| WRITTEN + place);
    let mut pairs: Vec<(usize, usize)> = picked.places.iter().copied().zip(places).collect();
    let written = pairs.iter().map(|(item, other)| item + other).collect();
    met.sort_unstable();
    pairs.sort_unstable();
    assert_eq!(met, pairs, "{picked:?}");
    written
}

/// Asserts that a closure makes the items of those of another array, each once, and returns what is written.
fn is_written_of_others<D: Lengths>(
    numbers: &mut Numbers,
    part: ArrayViewMut<'_, usize, D>,
    picked: &Picked,
) -> Vec<usize> {
    let (mut part, other) = (part, Plain::of(numbers, picked.shape.clone()));
    let mut places = other.whole().places;
    let written = places.iter().map(|place| WRITTEN + place).collect();
    let mut others: Vec<usize> = (0..other.len).collect();
    let others: ArrayViewMut<'_, usize, D> = array(&other, &mut others);
    let mut seen = Vec::new();
    let write = |item: &usize| {
        seen.push(*item);
        WRITTEN + item
    };
    if numbers.once_in(2) {
        assert_eq!(others.view().map_into(&mut part, write), Ok(()));
    } else {
        assert_eq!(others.view().map_into_nearest(&mut part, write), Ok(()));
        seen.sort_unstable();
        places.sort_unstable();
    }
    assert_eq!(seen, places, "{picked:?}");
    written
}

/// Two indices, each of which may be past one axis, as numbers in row-major order and as indices.
fn indices<D: Lengths>(numbers: &mut Numbers, shape: &[usize]) -> [(Option<usize>, D); 2] {
    [(); 2].map(|()| {
        let axis = numbers.below(shape.len() + 1);
        let number = numbers.below(shape.iter().product());
        let mut index = index_of(shape, number);
        let is_past = axis < shape.len() && numbers.once_in(4);
        if is_past {
            index[axis] = shape[axis];
        }
        ((!is_past).then_some(number), dimension(index.into_iter()))
    })
}

/// Asserts that a swap is that of the model.
fn swaps<D: Lengths>(numbers: &mut Numbers, part: ArrayViewMut<'_, usize, D>, picked: &Picked) -> Vec<usize> {
    let (mut part, mut expected) = (part, picked.places.clone());
    for _ in 0..if expected.is_empty() { 0 } else { 3 } {
        let [(one, index), (two, other)] = indices::<D>(numbers, &picked.shape);
        let both = one.zip(two);
        both.into_iter().for_each(|(one, two)| expected.swap(one, two));
        assert_eq!(part.swap(&index, &other), both.is_some(), "{picked:?}");
    }
    expected
}

/// Asserts that each item comes with its index.
fn indices_come<D: Dimension>(numbers: &mut Numbers, part: ArrayViewMut<'_, usize, D>, picked: &Picked) -> Vec<usize> {
    let (mut part, begun) = (part, numbers.below(picked.places.len() + 1));
    let mut left = part.indexed_iter_mut();
    for number in 0..begun {
        let index: D = dimension(index_of(&picked.shape, number).into_iter());
        let (pattern, item) = left.next().expect("one more");
        assert_eq!((format!("{pattern:?}"), *item), (format!("{:?}", index.into_pattern()), picked.places[number]));
        *item = WRITTEN + number;
    }
    assert_eq!(left.len(), picked.places.len() - begun);
    let end = left.fold(begun, |number, (pattern, item)| {
        let index: D = dimension(index_of(&picked.shape, number).into_iter());
        assert_eq!(format!("{pattern:?}"), format!("{:?}", index.into_pattern()));
        *item += WRITTEN;
        number + 1
    });
    assert_eq!(end, picked.places.len());
    let written = picked.places.iter().enumerate();
    written.map(|(number, place)| WRITTEN + if number < begun { number } else { *place }).collect()
}

#[test]
fn random_parts_take_items_swap_them_and_tell_their_indices() {
    let mut numbers = Numbers::new(1_995_001);
    let mut written = 0;
    for _ in 0..arrays() / 2 {
        let plain = Plain::any(&mut numbers);
        let calls =
            [takes, takes_two, takes_up_to_five, takes_as_they_lie, is_written_of_others, swaps, indices_come::<IxDyn>];
        for call in calls {
            written += whole(&mut numbers, &plain, call);
        }
        let calls: &[_] = if plain.shape.len() == 2 {
            &[takes::<Ix2>, takes_two::<Ix2>, takes_up_to_five::<Ix2>, swaps::<Ix2>, indices_come::<Ix2>]
        } else {
            &[]
        };
        calls.iter().for_each(|call| written += whole(&mut numbers, &plain, *call));
        let calls: &[_] = if plain.shape.len() == 3 { &[takes::<Ix3>, swaps::<Ix3>, indices_come::<Ix3>] } else { &[] };
        calls.iter().for_each(|call| written += whole(&mut numbers, &plain, *call));
    }
    assert!(written > 7 * arrays(), "{written} items");
}

#[test]
fn an_array_of_another_shape_changes_no_item() -> Result<(), LayoutError> {
    let mut numbers = NUMBERS;
    let mut part = rows_mut(&mut numbers);
    let others = ArrayView::from_shape(Ix2(3, 2), &NUMBERS)?;
    let fault = Err(from_kind(ErrorKind::IncompatibleShape));
    assert_eq!(part.zip_mut_with(&others, |_, _| panic!("no item is called with")), fault);
    assert_eq!(part.zip_mut_with_nearest(&others, |_, _| panic!("no item is called with")), fault);
    let same = ArrayView::from_shape(Ix2(2, 3), &NUMBERS)?;
    assert_eq!(part.zip_mut_with_two(&others, &same, |_, _, _| panic!("no item is called with")), fault);
    assert_eq!(part.zip_mut_with_two(&same, &others, |_, _, _| panic!("no item is called with")), fault);
    let zip = Zip::from(&mut part).and(&same).and(&same).and(&others);
    assert_eq!(zip.for_each(|_, _, _, _| panic!("no item is called with")), fault);
    let zip = Zip::from(&mut part).and(&others).and(&same);
    assert_eq!(zip.for_each_nested(|_, _| panic!("no item is called with")), fault);
    assert_eq!(others.map_into(&mut part, |_| panic!("no item is called with")), fault);
    assert_eq!(others.map_into_nearest(&mut part, |_| panic!("no item is called with")), fault);
    assert_eq!(part.assign(&others), fault);
    assert!(!part.swap(&(0, 0), &(2, 0)) && !part.swap(&(0, 3), &(0, 0)));
    assert_eq!(numbers, NUMBERS);
    let mut one = ArrayViewMut::from_shape(IxDyn(&[]), &mut numbers)?;
    assert!(!one.swap(&IxDyn(&[0]), &IxDyn(&[])));
    Ok(())
}

#[test]
fn lists_are_taken_and_swapped() -> Result<(), LayoutError> {
    let (mut lists, others) = (crate::lists(), vec![vec![7, 7], vec![8, 8, 8]]);
    let mut part = rows_mut(&mut lists);
    part.slice_mut(s![.., 2])?.assign(&ArrayView::from_shape([2], &others)?)?;
    assert!(part.swap(&(0, 1), &(1, 0)) && part.swap(&(1, 1), &(1, 1)));
    part.view_mut().reversed_axes().indexed_iter_mut().for_each(|((row, _), list)| list.push(row as u8));
    let rows = ArrayView::from_shape([1, 2], &others)?.broadcast(&Ix2(2, 2))?;
    part.slice_mut(s![.., ..2])?.zip_mut_with(&rows, |list, other| list.extend(&other[1..]))?;
    let expected: [&[u8]; 7] = [&[0, 0, 7], &[3, 1, 8, 8], &[7, 7, 2], &[1, 0, 7], &[4, 1, 8, 8], &[8, 8, 8, 2], &[6]];
    assert_eq!(lists, expected);
    Ok(())
}

#[test]
fn columns_tiles_and_turned_parts_take_the_items_beside_them() -> Result<(), LayoutError> {
    let mut numbers = NUMBERS;
    let mut part = rows_mut(&mut numbers);
    part.slice_mut(s![.., 1])?.assign(&ArrayView::from_shape(Ix1(2), &[20, 21])?)?;
    assert_eq!(part.iter().copied().collect::<Vec<u8>>(), [0, 20, 2, 3, 21, 5]);
    let row = ArrayView::from_shape(Ix1(2), &[30, 31])?.broadcast(&Ix2(2, 2))?;
    part.slice_mut(s![.., 1..])?.assign(&row)?;
    assert_eq!(part.iter().copied().collect::<Vec<u8>>(), [0, 30, 31, 3, 30, 31]);
    let columns = ArrayView::from_shape(Ix2(3, 2), &[10, 11, 12, 13, 14, 15])?;
    part.view_mut().reversed_axes().assign(&columns)?;
    assert_eq!(part.iter().copied().collect::<Vec<u8>>(), [10, 12, 14, 11, 13, 15]);
    let mut met = Vec::new();
    part.view_mut().reversed_axes().zip_mut_with(&columns, |item, other| {
        met.push((*item, *other));
        *item += other;
    })?;
    assert_eq!(met, [(10, 10), (11, 11), (12, 12), (13, 13), (14, 14), (15, 15)]);
    assert_eq!(part.iter().copied().collect::<Vec<u8>>(), [20, 24, 28, 22, 26, 30]);
    let rows = ArrayView::from_shape(Ix2(2, 3), &[1, 2, 3, 4, 5, 6])?;
    part.slice_mut(s![..;-1, ..;-1])?.assign(&rows)?;
    assert_eq!(numbers, [6, 5, 4, 3, 2, 1, 6]);
    Ok(())
}

#[test]
fn more_axes_than_are_sorted_take_the_items_beside_them() -> Result<(), LayoutError> {
    let (mut items, others) = ([0; 128], std::array::from_fn::<u8, 128, _>(|place| place as u8));
    let others = ArrayView::from_shape(IxDyn(&[2; 7]), &others)?;
    ArrayViewMut::from_shape(IxDyn(&[2; 7]), &mut items)?.reversed_axes().assign(&others)?;
    assert!(items.iter().zip(0_u8..).all(|(item, place)| *item == place.reverse_bits() >> 1));
    Ok(())
}
