//! Calls that lend items to be written, and are refused: each item is as it was, and so is the view of the array or the part that
//! lent them. No clause can say so of the items, nor of the view where a struct is lent.

use crate::{NUMBERS, rows_mut};
use ndarray_layout::CanIndexCheckMode::{OwnedMutable, ReadOnly};
use ndarray_layout::{
    ArrayView, ArrayViewMut, Axis, Fit, Ix1, Ix2, Ix4, Lengths, Order, OwnedArray, Strided, s, unsigned,
};

/// The shape, the strides and the start of a view.
type Layout<'a, D> = (&'a D, &'a D, usize);

fn layout<D: Lengths>(view: &Strided<D>) -> Layout<'_, D> {
    (view.dim(), view.strides(), view.start())
}

/// Rows of three, the second one first, over six of seven items.
fn turned<T>(items: &mut [T]) -> ArrayViewMut<'_, T, Ix2> {
    let mut rows = rows_mut(items);
    rows.invert_axis(Axis(0)).expect("an axis");
    rows
}

/// Asserts that a view is that of `turned`, and returns true.
fn is_turned(view: &Strided<Ix2>) -> bool {
    assert_eq!(layout(view), (&Ix2(2, 3), &Ix2(unsigned(-3), 1), 3));
    true
}

/// Asserts that a view is that of rows of three in order, and returns true.
fn is_in_order(view: &Strided<Ix2>) -> bool {
    assert_eq!(layout(view), (&Ix2(2, 3), &Ix2(3, 1), 0));
    true
}

/// What a call of items returns, which leaves them as they were.
fn keeps(call: impl FnOnce(&mut [u8]) -> bool) -> bool {
    let mut numbers = NUMBERS;
    let returned = call(&mut numbers);
    assert_eq!(numbers, NUMBERS);
    returned
}

/// Asserts that a call of a part returns true, and leaves the part's view and the items as they were.
fn keeps_part(call: impl FnOnce(&mut ArrayViewMut<'_, u8, Ix2>) -> bool) {
    assert!(keeps(|items| {
        let mut part = turned(items);
        call(&mut part) && is_turned(part.strided())
    }));
}

/// The same of a call of an array that owns its items.
fn keeps_owned(call: impl FnOnce(&mut OwnedArray<u8, Ix2>) -> bool) {
    let mut array = OwnedArray::from_shape_vec(Ix2(2, 3), NUMBERS.to_vec()).expect("six items");
    assert!(call(&mut array) && is_in_order(array.strided()));
    assert_eq!(array.stored(), NUMBERS);
}

#[test]
fn items_that_are_too_few_or_shared_are_as_they_were() {
    let view = |stride, mode| Strided::new(Ix2(2, 3), Ix2(stride, 1), 1, 7, mode).unwrap();
    assert!(keeps(|items| ArrayViewMut::over(view(3, OwnedMutable), &mut items[2..]).is_err()));
    assert!(keeps(|items| ArrayViewMut::over(view(1, ReadOnly), items).is_err()));
    assert!(keeps(|items| ArrayViewMut::from_shape(Ix2(2, 4), items).is_err()));
}

#[test]
fn an_item_at_no_index_is_lent_to_none() {
    keeps_part(|part| part.get_mut(&(2, 0)).is_none());
    keeps_part(|part| part.get_mut(&(0, 3)).is_none());
    keeps_part(|part| !part.set(&(2, 0), 9));
    keeps_part(|part| part.replace(&(0, 3), 9) == Err(9));
    keeps_part(|part| !part.swap(&(0, 0), &(2, 0)));
    keeps_part(|part| !part.set(&(0, 3), 9));
    keeps_owned(|array| array.get_mut(&(2, 0)).is_none());
    keeps_owned(|array| !array.set(&(0, 3), 9));
    keeps_owned(|array| !array.swap(&(0, 0), &(2, 0)));
}

#[test]
fn a_slice_that_does_not_fit_changes_no_item() {
    keeps_part(|part| part.slice_mut_with::<Ix2, _>(&s![..3, ..], Fit::Strict).is_err());
    keeps_part(|part| part.slice_mut(s![..3, ..]).is_err());
    keeps_part(|part| part.multi_slice_mut((s![0, ..], s![.., 2])).is_err());
    keeps_part(|part| part.view_mut().slice_move_with::<Ix1, _>(&s![.., ..], Fit::Strict).is_err());
    keeps_part(|part| part.view_mut().multi_slice_move::<_, Ix1>(&[s![0, ..], s![2, ..]]).is_err());
    keeps_part(|part| part.view_mut().multi_slice_move::<_, Ix1>(&[s![0, ..], s![.., 2]]).is_err());
    keeps_part(|part| part.view_mut().split_at(Axis(1), 4).is_err());
    keeps_part(|part| part.view_mut().crop(&Ix2(0, 0), &Ix2(2, 4)).is_none());
    keeps_part(|part| part.view_mut().into_slice().is_err());
    keeps_part(|part| part.as_slice_mut().is_none());
    keeps_owned(|array| array.slice_mut(s![..3, ..]).is_err());
    keeps_owned(|array| array.multi_slice_mut((s![0, ..], s![.., 2])).is_err());
    keeps_owned(|array| array.map_in_place(&s![..3, ..], |item| *item = 9).is_err());
    keeps_owned(|array| array.multi_set(&[(s![..3, ..].to_vec(), vec![9; 9])]).is_err());
}

#[test]
fn a_coordinate_past_an_axis_changes_no_item() {
    keeps_part(|part| part.index_axis_mut(Axis(0), 2).is_err());
    keeps_part(|part| part.axis_iter_mut(Axis(2)).is_err());
    keeps_part(|part| part.axis_chunks_iter_mut(Axis(0), 0).is_err());
    keeps_part(|part| part.row_mut(2).is_err());
    keeps_part(|part| part.column_mut(3).is_err());
    keeps_part(|part| part.view_mut().index_axis(Axis(0), 2).is_err());
    keeps_part(|part| part.lanes_mut(Axis(2)).is_err());
    keeps_owned(|array| array.axis_iter_mut(Axis(2)).is_err());
    keeps_owned(|array| array.axis_chunks_iter_mut(Axis(0), 0).is_err());
    keeps_owned(|array| array.row_mut(2).is_err());
    keeps_owned(|array| array.column_mut(3).is_err());
    keeps_owned(|array| array.lanes_mut(Axis(2)).is_err());
}

#[test]
fn axes_and_shapes_that_are_refused_change_no_item() {
    keeps_part(|part| part.invert_axis(Axis(2)).is_err());
    keeps_part(|part| part.swap_axes(Axis(0), Axis(2)).is_err());
    keeps_part(|part| part.view_mut().permuted_axes(&[Axis(0), Axis(0)]).is_err());
    keeps_part(|part| part.view_mut().reshape(&Ix1(6), Order::RowMajor).is_err());
    keeps_part(|part| part.view_mut().exact_chunks::<Ix4>(&Ix2(0, 1)).is_err());
    keeps_part(|part| part.view_mut().insert_axis(Axis(3)).is_err());
}

#[test]
fn items_of_another_shape_change_none() {
    let others = || ArrayView::from_shape(Ix2(3, 2), &NUMBERS).expect("six items");
    let same = || ArrayView::from_shape(Ix2(2, 3), &NUMBERS).expect("six items");
    keeps_part(|part| part.assign(&others()).is_err());
    keeps_part(|part| part.zip_mut_with_two(&others(), &same(), |item, _, _| *item = 9).is_err());
    keeps_part(|part| part.zip_mut_with_two(&same(), &others(), |item, _, _| *item = 9).is_err());
    keeps_part(|part| part.zip_mut_with(&others(), |item, _| *item = 9).is_err());
    keeps_owned(|array| array.assign(&others()).is_err());
    keeps_owned(|array| array.zip_mut_with(&others(), |item, _| *item = 9).is_err());
    keeps_owned(|array| array.zip_mut_with_two(&same(), &others(), |item, _, _| *item = 9).is_err());
}

#[test]
fn what_is_lent_leaves_the_view() {
    keeps_part(|part| is_turned(part.reborrow().expect("memory").strided()));
    keeps_part(|part| is_turned(part.slice_mut_with(&s![.., ..], Fit::Strict).expect("a slice").strided()));
    keeps_part(|part| is_turned(part.slice_mut(s![.., ..]).expect("a slice").strided()));
    keeps_part(|part| part.get_mut(&(1, 2)) == Some(&mut 2));
    keeps_part(|part| is_turned(part.view_mut().strided()));
    keeps_owned(|array| is_in_order(array.parts_mut().0));
    keeps_owned(|array| is_in_order(array.try_view_mut().expect("memory").strided()));
    keeps_owned(|array| is_in_order(array.slice_mut(s![.., ..]).expect("a slice").strided()));
    keeps_owned(|array| array.stored_mut() == NUMBERS);
}
