//! Items of arrays that own their data, read and written at slices.

use crate::compare::{ORDERS, compare};
use crate::model::{View, layouts, slices as model};
use crate::numbers::Numbers;
use crate::types::{dimension, lists_of, of_types};
use ndarray_layout::{
    Dimension, ErrorKind, Fit, IxDyn, LayoutError, Order, OwnedArray, SliceInfoElem, StrideShape, Strides,
};

type Write = (Vec<SliceInfoElem>, Vec<usize>);

const SLICE: [&str; 4] = ["Ok", "IncompatibleShape", "OutOfBounds", "Unsupported"];

/// The array of a shape in an order, with another item at each place.
fn array<D: Dimension>(shape: &[usize], order: Order) -> OwnedArray<usize, D> {
    let strides = if order == Order::RowMajor { Strides::C } else { Strides::F };
    let items = (0..layouts::size(shape) as usize).map(|place| place * 3 + 1).collect();
    match OwnedArray::from_shape_vec(StrideShape { dim: dimension(shape), strides }, items) {
        Ok(array) => array,
        Err((error, _)) => panic!("{error:?}"),
    }
}

/// The places that a slice of the array of a shape picks.
fn places(shape: &[usize], order: Order, elems: &[SliceInfoElem]) -> Result<Vec<usize>, ErrorKind> {
    let view: View = lists_of(array::<IxDyn>(shape, order).strided());
    let part = model::slice(&view, elems, Fit::Strict)?;
    let places = layouts::places(part.start as i128, &part.shape, &part.strides, Order::RowMajor);
    Ok(places.into_iter().map(|place| place as usize).collect())
}

#[test]
fn items_at_slices_are_the_models() {
    let arguments = |numbers: &mut Numbers| {
        let shape = numbers.small_shape();
        let elems = numbers.elems(&shape);
        (shape, numbers.pick(&ORDERS), elems)
    };
    compare(
        "items",
        &SLICE,
        arguments,
        |(shape, order, elems)| of_types!(Some(shape.len()), D => array::<D>(shape, *order).items(elems)),
        |(shape, order, elems)| Ok(places(shape, *order, elems)?.iter().map(|place| place * 3 + 1).collect()),
    );
}

/// Slices that lie beside one another along an axis: none shares an element with another.
fn strips(numbers: &mut Numbers, shape: &[usize]) -> Vec<Vec<SliceInfoElem>> {
    let axis = numbers.below(shape.len());
    let mut bounds: Vec<usize> = (0..numbers.below(5)).map(|_| numbers.below(shape[axis] + 1)).collect();
    bounds.sort_unstable();
    let all = SliceInfoElem::from(..);
    let mut strips = Vec::new();
    for pair in bounds.windows(2) {
        let mut elems: Vec<_> = shape.iter().map(|_| all).collect();
        let (start, end) = (pair[0] as isize, Some(pair[1] as isize));
        elems[axis] = SliceInfoElem::Slice { start, end, step: numbers.pick(&[1, 1, 2, -1, -3]) };
        strips.push(elems);
    }
    if numbers.once_in(2) {
        strips.reverse();
    }
    strips
}

/// Slices with an item for each index, seldom one more.
fn writes(numbers: &mut Numbers, shape: &[usize]) -> Vec<Write> {
    let slices = if shape.is_empty() || numbers.once_in(4) {
        (0..numbers.below(3)).map(|_| numbers.elems(shape)).collect()
    } else {
        strips(numbers, shape)
    };
    let with_items = |elems: Vec<SliceInfoElem>| {
        let count = model::picked(shape, &elems, Fit::Strict).unwrap_or(2) as usize;
        let count = if numbers.once_in(20) { count + 1 } else { count };
        (elems, (0..count).map(|_| numbers.below(1 << 20)).collect())
    };
    slices.into_iter().map(with_items).collect()
}

/// The items of an array after writes. An error changes none.
fn written<D: Dimension>(shape: &[usize], order: Order, writes: &[Write]) -> Result<Vec<usize>, LayoutError> {
    let mut written = array::<D>(shape, order);
    if let Err(error) = written.multi_set(writes) {
        assert_eq!(written.stored(), array::<D>(shape, order).stored(), "an error changed {shape:?}");
        return Err(error);
    }
    assert_eq!(written.strided().dim().slice(), shape);
    Ok(written.into_stored())
}

fn model_of_writes(shape: &[usize], order: Order, writes: &[Write]) -> Result<Vec<usize>, ErrorKind> {
    let all_places = writes.iter().map(|(elems, _)| places(shape, order, elems)).collect::<Result<Vec<_>, _>>()?;
    let writes = || all_places.iter().zip(writes);
    if writes().any(|(places, (_, items))| places.len() != items.len()) {
        return Err(ErrorKind::IncompatibleShape);
    }
    let mut stored = array::<IxDyn>(shape, order).into_stored();
    let mut is_written = vec![false; stored.len()];
    for (place, item) in writes().flat_map(|(places, (_, items))| places.iter().zip(items)) {
        if std::mem::replace(&mut is_written[*place], true) {
            return Err(ErrorKind::Unsupported);
        }
        stored[*place] = *item;
    }
    Ok(stored)
}

#[test]
fn writes_at_slices_are_the_models() {
    let arguments = |numbers: &mut Numbers| {
        let shape = numbers.small_shape();
        let writes = writes(numbers, &shape);
        (shape, numbers.pick(&ORDERS), writes)
    };
    compare(
        "multi_set",
        &SLICE,
        arguments,
        |(shape, order, writes)| of_types!(Some(shape.len()), D => written::<D>(shape, *order, writes)),
        |(shape, order, writes)| model_of_writes(shape, *order, writes),
    );
}
