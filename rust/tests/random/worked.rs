//! Rows with values by hand, of more axes or more calls than those of the tables, and of calls that no table makes.

use crate::model::View;
use crate::types::{lists_of, signed_list, strided};
use ndarray_layout::{
    Axis, Fit, Forward, Ix2, Ix3, IxDyn, LayoutError, Lengths, NewAxis, Order, Reverse, Sequence, Slice, SliceInfoElem,
    Strided, co_broadcast, default_strides, new_ixdyn, s,
};

fn dynamic(start: usize, shape: &[usize], strides: &[isize]) -> Strided<IxDyn> {
    let view = View { start, shape: shape.to_vec(), strides: strides.to_vec() };
    strided(&view).expect("a layout within the limit")
}

fn found<D: Lengths>(view: &Strided<D>, order: Order) -> Vec<usize> {
    view.iter_places(order).collect()
}

#[test]
fn three_axes_sliced_and_reshaped() -> Result<(), LayoutError> {
    let view = strided::<Ix3>(&View { start: 0, shape: vec![2, 3, 4], strides: vec![12, 4, 1] })?;
    let part = view.sliced(s![.., 1..;-1, 0..4;2])?;
    assert_eq!(lists_of(&part), View { start: 8, shape: vec![2, 2, 2], strides: vec![12, -4, 2] });
    assert_eq!(found(&part, Order::RowMajor), [8, 10, 4, 6, 20, 22, 16, 18]);
    assert!(part.reshape(&Ix2(4, 2), Order::RowMajor).is_err());
    Ok(())
}

#[test]
fn five_axes_sliced_and_more() -> Result<(), LayoutError> {
    let view = dynamic(0, &[2, 3, 1, 4, 2], &[24, 8, 8, 2, 1]);
    let part = view.slice::<Ix3, _>(&s![1, 2..;-2, 0, NewAxis, .., -1], Fit::Strict)?;
    assert_eq!(lists_of(&part), View { start: 41, shape: vec![1, 1, 4], strides: vec![0, 0, 2] });
    let strides = default_strides(&new_ixdyn(&[2, 3, 1, 4, 2, 1, 1])?)?;
    assert_eq!(signed_list(&strides), [24, 8, 8, 2, 1, 1, 1]);
    let common: IxDyn = co_broadcast(&Ix3(2, 1, 1), &new_ixdyn(&[0, 0, 1, 3, 4])?)?;
    assert_eq!(common.slice(), [0, 0, 2, 3, 4]);
    Ok(())
}

/// One row of `[2,3]`, its axes merged, and the row repeated.
#[test]
fn a_row_repeated() -> Result<(), LayoutError> {
    let view = strided::<Ix2>(&View { start: 0, shape: vec![2, 3], strides: vec![3, 1] })?;
    let mut row = view.sliced(s![1..2, ..])?;
    assert!(row.merge(Axis(0), Axis(1))?);
    let repeated = row.broadcast(&Ix3(2, 2, 3))?;
    assert_eq!(signed_list(repeated.strides()), [0, 0, 1]);
    assert_eq!(found(&repeated, Order::RowMajor), [3, 4, 5].repeat(4));
    Ok(())
}

/// More axes and more places than any fixed room of the layer holds.
#[test]
fn a_hundred_axes_and_thousands_of_places() -> Result<(), LayoutError> {
    let view = dynamic(5, &[1; 100], &[7; 100]);
    assert_eq!(found(&view, Order::ColumnMajor), [5]);
    assert_eq!(view.reshape(&new_ixdyn(&[])?, Order::RowMajor)?.start(), 5);
    let part: Strided<IxDyn> = view.slice(&[(..).into(); 100], Fit::Strict)?;
    assert_eq!(lists_of(&part), View { start: 5, shape: vec![1; 100], strides: vec![0; 100] });
    let rows = dynamic(0, &[40, 64], &[64, 1]);
    assert!(rows.iter_places(Order::RowMajor).eq(0..2560));
    assert!(rows.iter_places(Order::ColumnMajor).eq((0..2560).map(|flat| flat % 40 * 64 + flat / 40)));
    Ok(())
}

#[test]
fn slices_of_usize_bounds() {
    let slices = [Slice::of_usize(1, 3), Slice::from_usize(2), Slice::to_usize(3)];
    assert_eq!(slices, [Slice::new(1, Some(3), 1), Slice::new(2, None, 1), Slice::new(0, Some(3), 1)]);
    assert_eq!(Slice::inclusive_usize(1, 3), Slice::new(1, Some(4), 1));
    assert_eq!(Slice::to_inclusive_usize(3), Slice::new(0, Some(4), 1));
}

#[test]
fn kinds_of_elements() {
    let elems = [SliceInfoElem::index_usize(3), SliceInfoElem::from(1..), SliceInfoElem::NewAxis];
    assert_eq!(elems[0], SliceInfoElem::Index(3));
    assert_eq!(elems.map(|elem| elem.is_index()), [true, false, false]);
    assert_eq!(elems.map(|elem| elem.is_slice()), [false, true, false]);
    assert_eq!(elems.map(|elem| elem.is_new_axis()), [false, false, true]);
}

/// A list that is written from its last item back, or from its first one.
#[test]
fn sequences_that_are_written() {
    let mut list = [1, 2, 3];
    let mut backward = Reverse(&mut list[..]);
    assert_eq!((Sequence::len(&backward), backward[0]), (3, 3));
    backward[0] = 7;
    let mut forward = Forward(&mut list[..]);
    assert_eq!((Sequence::len(&forward), forward[2]), (3, 7));
    forward[0] = 5;
    assert_eq!(list, [5, 2, 7]);
}

#[test]
fn a_length_of_any_count_of_axes_by_its_number() -> Result<(), LayoutError> {
    let mut dim = new_ixdyn(&[2, 3, 1, 4, 2])?;
    dim[3] = 9;
    assert_eq!((dim[0], dim[3], dim[4]), (2, 9, 2));
    Ok(())
}

#[test]
fn orders_by_a_condition() {
    for (is_by_rows, order) in [(true, Order::RowMajor), (false, Order::ColumnMajor)] {
        assert_eq!((Order::row_major(is_by_rows), Order::column_major(!is_by_rows)), (order, order));
        assert_eq!((order.is_row_major(), order.transpose().is_column_major()), (is_by_rows, is_by_rows));
    }
}
