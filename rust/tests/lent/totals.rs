//! What is known of all items at once: sums, the least and the greatest, and whether some or all pass a test.

use crate::{ROWS, lists, two_rows};
use ndarray_layout::{
    ArrayView, Axis, ErrorKind, Fit, Ix1, Ix2, IxDyn, LayoutError, Lengths, ShapeBuilder, ShapeError, s, unsigned,
};

#[test]
fn items_are_added_as_often_as_they_have_an_index() -> Result<(), LayoutError> {
    let rows = two_rows();
    assert_eq!(rows.sum(), Some(15));
    assert_eq!(rows.index_axis(Axis(1), 2)?.sum(), Some(7));
    assert_eq!(rows.slice_with::<Ix2, _>(&s![..0, ..], Fit::Strict)?.sum(), Some(0));
    let one = ArrayView::from_shape(Ix1(1), &[200_u8])?;
    assert_eq!(one.broadcast(&Ix2(1000, 1000))?.sum(), Some(200_000_000));
    assert_eq!(one.broadcast(&Ix1(8))?.product(), Some(200_u64.pow(8)));
    assert_eq!(rows.slice_with::<Ix2, _>(&s![.., 1..], Fit::Strict)?.product(), Some(40));
    assert_eq!(rows.slice_with::<Ix2, _>(&s![..0, ..], Fit::Strict)?.product(), Some(1));
    Ok(())
}

#[test]
fn a_product_past_the_greatest_number_is_none_unless_a_zero_follows() -> Result<(), LayoutError> {
    let items = [1, u64::MAX, 2, 3, 0];
    let products = [0, 2, 3, 4, 5].map(|count| ArrayView::from_shape(Ix1(count), &items).map(|a| a.product()));
    assert_eq!(products.map(|product| product.ok().flatten()), [Some(1), Some(u64::MAX), None, None, Some(0)]);
    Ok(())
}

#[test]
fn a_sum_past_the_greatest_number_is_none() -> Result<(), LayoutError> {
    let items = [u64::MAX - 1, 1, 1];
    assert_eq!(ArrayView::from_shape(Ix1(2), &items)?.sum(), Some(u64::MAX));
    assert_eq!(ArrayView::from_shape(Ix1(3), &items)?.sum(), None);
    let [short, whole] =
        [[3_u16, 4].map(u32::from), [5, 6]].map(|items| ArrayView::from_shape(Ix1(2), &items).map(|a| a.sum()));
    assert_eq!((short?, whole?), (Some(7), Some(11)));
    Ok(())
}

#[test]
fn the_least_and_the_greatest_are_found_where_there_is_an_item() -> Result<(), LayoutError> {
    let rows = two_rows();
    assert_eq!((rows.min(), rows.max()), (Some(0), Some(5)));
    let middle = rows.slice_with::<Ix2, _>(&s![..;-1, 1..2], Fit::Strict)?;
    assert_eq!((middle.min(), middle.max()), (Some(1), Some(4)));
    let none = rows.slice_with::<Ix2, _>(&s![.., 3..], Fit::Strict)?;
    assert_eq!((none.min(), none.max()), (None, None));
    Ok(())
}

#[test]
fn a_test_is_asked_in_order_until_it_decides() -> Result<(), LayoutError> {
    let rows = two_rows();
    let mut asked = Vec::new();
    assert!(rows.any(|item| {
        asked.push(*item);
        *item == 2
    }));
    assert_eq!(asked, [0, 1, 2]);
    asked.clear();
    assert!(!rows.all(|item| {
        asked.push(*item);
        *item < 1
    }));
    assert_eq!(asked, [0, 1]);
    assert!(rows.all(|item| *item < 6) && !rows.any(|item| *item > 5));
    let none = rows.slice_with::<Ix2, _>(&s![..0, ..], Fit::Strict)?;
    assert!(none.all(|_| false) && !none.any(|_| true));
    Ok(())
}

#[test]
fn lists_that_own_memory_pass_tests() -> Result<(), LayoutError> {
    let lists = lists();
    let rows = ArrayView::from_shape(ROWS, &lists)?;
    assert!(rows.any(|list| !list.is_empty()) && rows.all(|list| list.len() < 100));
    Ok(())
}

#[test]
fn arrays_are_equal_where_shapes_and_items_are() -> Result<(), LayoutError> {
    let rows = two_rows();
    let columns = [0, 3, 1, 4, 2, 5];
    let turned = ArrayView::from_shape(Ix2(3, 2), &columns)?.reversed_axes();
    assert!(ArrayView::eq(&rows, &turned) && rows == turned);
    let other = [0, 3, 1, 4, 2, 6];
    let other = ArrayView::from_shape(Ix2(3, 2), &other)?;
    assert!(!ArrayView::eq(&rows, &other) && !ArrayView::eq(&rows, &other.reversed_axes()));
    let (no_row, no_column) =
        (rows.slice_with::<Ix2, _>(&s![..0, ..], Fit::Strict)?, rows.slice_with::<Ix2, _>(&s![.., ..0], Fit::Strict)?);
    assert!(ArrayView::eq(&no_row, &no_row.view()) && !ArrayView::eq(&no_row, &no_column));
    let [one, another] = [lists(), lists()];
    let [one, another] = [ArrayView::from_shape(ROWS, &one)?, ArrayView::from_shape(ROWS, &another)?];
    assert!(ArrayView::eq(&one, &another));
    let (words, others) = (["a", "b"].map(String::from), ["b", "a"]);
    let words = ArrayView::from_shape(Ix1(2), &words)?;
    let turned = ArrayView::from_shape(Ix1(2).strides(Ix1(unsigned(-1)))?, &others)?;
    assert!(ArrayView::eq(&words, &turned) && !ArrayView::eq(&words, &ArrayView::from_shape(Ix1(2), &others)?));
    Ok(())
}

/// The pairs of items that `fold_with` is called at, in order.
fn pairs<D: Lengths>(a: &ArrayView<'_, u8, D>, b: &ArrayView<'_, i16, D>) -> Result<Vec<(u8, i16)>, ShapeError> {
    a.fold_with(b, Vec::new(), |mut pairs, x, y| {
        pairs.push((*x, *y));
        pairs
    })
}

#[test]
fn two_arrays_of_one_shape_are_folded_in_step() -> Result<(), LayoutError> {
    let items: Vec<i16> = (10..16).collect();
    let (rows, others) = (two_rows(), ArrayView::from_shape(ROWS, &items)?);
    assert_eq!(pairs(&rows, &others)?, [(0, 10), (1, 11), (2, 12), (3, 13), (4, 14), (5, 15)]);
    let turned = ArrayView::from_shape(Ix2(3, 2), &items)?.reversed_axes();
    assert_eq!(pairs(&rows, &turned)?, [(0, 10), (1, 12), (2, 14), (3, 11), (4, 13), (5, 15)]);
    let [left, right] = [s![.., ..2], s![..;-1, 1..]];
    let [left, right] = [rows.slice_with::<Ix2, _>(&left, Fit::Strict)?, rows.slice_with(&right, Fit::Strict)?];
    assert_eq!(left.fold_with(&right, 0, |sum, x, y| 100 * sum + 10 * u32::from(*x) + u32::from(*y))?, 4_153_142);
    assert_eq!(left.fold_with(&left, 0, |sum, x, y| sum + x * y)?, 26);
    let none = rows.slice_with::<Ix2, _>(&s![..0, ..], Fit::Strict)?;
    assert_eq!(none.fold_with(&none, 7, |_, _, _| 8)?, 7);
    for shape in [Ix2(3, 2), Ix2(1, 6), Ix2(2, 2)] {
        let fault = pairs(&rows, &ArrayView::from_shape(shape, &items)?).err();
        assert_eq!(fault.map(|fault| fault.kind()), Some(ErrorKind::IncompatibleShape));
    }
    Ok(())
}

#[test]
fn arrays_of_more_than_four_axes_are_folded_in_step() -> Result<(), LayoutError> {
    let items: Vec<u32> = (0..720).collect();
    let shape = IxDyn(&[2, 3, 4, 5, 6]);
    let a = ArrayView::from_shape(shape, &items)?;
    let turned = ArrayView::from_shape(IxDyn(&[6, 5, 4, 3, 2]), &items)?.reversed_axes();
    let told = a.fold_with(&turned, (0, 0), |(count, sum), x, y| (count + 1, sum + count * u64::from(x * y)))?;
    let each = a.iter().zip(turned.iter()).enumerate();
    assert_eq!(told, (720, each.map(|(count, (x, y))| count as u64 * u64::from(x * y)).sum()));
    Ok(())
}
