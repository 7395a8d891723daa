//! Random slices of parts, each of a type that the slices say, beside the model.

use crate::kind;
use crate::model::{Picked, Plain};
use crate::numbers::Numbers;
use crate::random::{array, model, slices};
use ndarray_layout::{ArrayViewMut, ErrorKind, Ix1, Ix2, IxDyn, LayoutError, Lengths, SliceInfoElem, s};

const CALLS: usize = 3_000;

/// Asserts that a part has the shape and the items of places, and writes a number at each.
fn writes<D: Lengths>(mut part: ArrayViewMut<'_, Vec<u8>, D>, picked: &Picked, items: &[Vec<u8>], number: u8) {
    assert_eq!(part.shape(), picked.shape);
    assert!(part.iter_mut().map(|item| &*item).eq(picked.places.iter().map(|place| &items[*place])), "{picked:?}");
    part.fill(vec![number; 2]);
}

/// Asserts that slices of a part are lent at once as the model says, or refused and no item changed.
fn compare_all(plain: &Plain, slices: &[&[SliceInfoElem]], expected: &Result<Vec<Picked>, ErrorKind>) {
    let mut items: Vec<Vec<u8>> = (0..plain.len).map(|place| vec![place as u8]).collect();
    let old = items.clone();
    let mut part = array::<_, IxDyn>(plain, &mut items);
    match expected {
        Ok(picked) => {
            assert_eq!(part.multi_slice_mut(slices).expect("parts").len(), picked.len());
            let parts = part.multi_slice_mut(slices).expect("parts").into_iter().zip(picked);
            parts.zip(1..).for_each(|((part, picked), number)| writes(part, picked, &old, number));
            for (picked, number) in picked.iter().zip(1..) {
                assert!(picked.places.iter().all(|place| items[*place] == [number; 2]));
            }
        }
        Err(error) => {
            assert_eq!(kind(part.multi_slice_mut(slices)), Some(*error));
            assert_eq!(items, old);
        }
    }
}

/// Asserts that one slice of a part is lent, for a while or for good, or refused and no item changed.
fn compare_one(plain: &Plain, slice: &[SliceInfoElem], for_good: bool) {
    let mut items: Vec<Vec<u8>> = (0..plain.len).map(|place| vec![place as u8]).collect();
    let old = items.clone();
    let mut part = array::<_, IxDyn>(plain, &mut items);
    let lent = if for_good { part.view_mut().slice_move(slice) } else { part.slice_mut(slice) };
    let mut expected = old.clone();
    match plain.picked(slice) {
        Some(picked) => {
            writes(lent.expect("a slice"), &picked, &old, 9);
            picked.places.iter().for_each(|place| expected[*place] = vec![9; 2]);
        }
        None => assert_eq!(kind(lent), Some(ErrorKind::OutOfBounds)),
    }
    assert_eq!(items, expected);
}

#[test]
fn random_slices_of_parts_are_the_models() {
    let mut numbers = Numbers::new(1_996_001);
    for _ in 0..CALLS {
        let plain = Plain::any(&mut numbers);
        let slices = slices(&mut numbers, &plain.shape);
        let elems: Vec<&[SliceInfoElem]> = slices.iter().map(Vec::as_slice).collect();
        compare_all(&plain, &elems, &model(&plain, &slices));
        elems.iter().for_each(|slice| compare_one(&plain, slice, numbers.once_in(2)));
    }
}

#[test]
fn slices_of_parts_have_the_types_of_the_arguments() -> Result<(), LayoutError> {
    let mut numbers = crate::NUMBERS;
    let mut part: ArrayViewMut<'_, u8, Ix2> = crate::rows_mut(&mut numbers);
    let (mut first, second): (ArrayViewMut<'_, u8, Ix1>, ArrayViewMut<'_, u8, Ix2>) =
        part.multi_slice_mut((s![0, ..], s![1.., ..;-1]))?;
    first[0] = second[(0, 0)];
    part.slice_mut(s![.., 1])?[1] = 9;
    assert_eq!(kind(part.slice_mut(s![2, ..])), Some(ErrorKind::OutOfBounds));
    assert_eq!(kind(part.slice_mut(s![..3, ..])), Some(ErrorKind::OutOfBounds));
    assert_eq!(kind(part.view_mut().slice_move(s![.., ..4])), Some(ErrorKind::OutOfBounds));
    let mut last = part.slice_move(s![-1, 1..])?;
    last[1] = 7;
    assert_eq!(numbers, [5, 1, 2, 3, 9, 7, 6]);
    Ok(())
}
