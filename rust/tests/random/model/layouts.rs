//! Which layouts are accepted, and where their indices lie.

use super::View;
use ndarray_layout::{CanIndexCheckMode, ErrorKind, Order};

/// The greatest `isize`.
pub const LIMIT: i128 = isize::MAX as i128;

pub fn is_empty(shape: &[usize]) -> bool {
    shape.contains(&0)
}

/// The product of the lengths other than 0, or some number past every type.
pub fn product_without_zeros(shape: &[usize]) -> i128 {
    let lens = shape.iter().filter(|len| **len != 0);
    lens.fold(1, |product: i128, len| product.saturating_mul(*len as i128))
}

pub fn size(shape: &[usize]) -> i128 {
    if is_empty(shape) { 0 } else { product_without_zeros(shape) }
}

fn reach(len: usize, stride: isize) -> i128 {
    if len == 0 { 0 } else { (len as i128 - 1).saturating_mul((stride as i128).abs()) }
}

/// The sum of the reaches of the axes whose stride is negative, and that of the others.
pub fn low_and_high(shape: &[usize], strides: &[isize]) -> (i128, i128) {
    let mut sums = (0i128, 0i128);
    for (len, stride) in shape.iter().zip(strides) {
        let sum = if *stride < 0 { &mut sums.0 } else { &mut sums.1 };
        *sum = sum.saturating_add(reach(*len, *stride));
    }
    sums
}

pub fn span(shape: &[usize], strides: &[isize]) -> i128 {
    let (low, high) = low_and_high(shape, strides);
    low.saturating_add(high)
}

/// Errors of a layout on its own.
pub fn check_valid(shape: &[usize], strides: &[isize]) -> Result<(), ErrorKind> {
    if shape.len() != strides.len() {
        return Err(ErrorKind::IncompatibleLayout);
    }
    if product_without_zeros(shape) > LIMIT || span(shape, strides) > LIMIT {
        return Err(ErrorKind::Overflow);
    }
    Ok(())
}

pub fn check_size(shape: &[usize]) -> Result<(), ErrorKind> {
    if product_without_zeros(shape) > LIMIT { Err(ErrorKind::Overflow) } else { Ok(()) }
}

/// Whether an axis longer than 1 has a stride within the reaches of the others of no greater stride.
pub fn has_overlap(shape: &[usize], strides: &[isize]) -> bool {
    let stride_of = |axis: usize| (strides[axis] as i128).abs();
    let others = |axis: usize| {
        let no_greater = (0..shape.len()).filter(move |other| *other != axis && stride_of(*other) <= stride_of(axis));
        no_greater.map(|other| reach(shape[other], strides[other])).fold(0, i128::saturating_add)
    };
    !is_empty(shape) && (0..shape.len()).any(|axis| shape[axis] > 1 && others(axis) >= stride_of(axis))
}

/// The bounds rule: the start, which lies as high above the lowest place as it must.
pub fn layout_start(
    shape: &[usize],
    strides: &[isize],
    elem_size: usize,
    len: usize,
    mode: CanIndexCheckMode,
) -> Result<usize, ErrorKind> {
    check_valid(shape, strides)?;
    let span = span(shape, strides);
    if span.saturating_mul(elem_size as i128) > LIMIT {
        return Err(ErrorKind::Overflow);
    }
    let room = len as i128;
    if if is_empty(shape) { span > room } else { span >= room } {
        return Err(ErrorKind::OutOfBounds);
    }
    if mode == CanIndexCheckMode::OwnedMutable && has_overlap(shape, strides) {
        return Err(ErrorKind::Unsupported);
    }
    Ok(low_and_high(shape, strides).0 as usize)
}

/// The bounds rule with a given start; no place may be past the limit, however long the buffer is.
pub fn check_layout(
    start: usize,
    shape: &[usize],
    strides: &[isize],
    elem_size: usize,
    len: usize,
    mode: CanIndexCheckMode,
) -> Result<(), ErrorKind> {
    check_valid(shape, strides)?;
    if span(shape, strides).saturating_mul(elem_size as i128) > LIMIT {
        return Err(ErrorKind::Overflow);
    }
    let (low, high) = low_and_high(shape, strides);
    let (lowest, highest) = (start as i128 - low, start as i128 + high);
    let past = if is_empty(shape) { highest > len as i128 } else { highest >= len as i128 };
    if lowest < 0 || past || highest > LIMIT {
        return Err(ErrorKind::OutOfBounds);
    }
    if mode == CanIndexCheckMode::OwnedMutable && has_overlap(shape, strides) {
        return Err(ErrorKind::Unsupported);
    }
    Ok(())
}

/// Whether all places of a view lie from 0 to the limit.
pub fn check_view(view: &View) -> Result<(), ErrorKind> {
    check_layout(view.start, &view.shape, &view.strides, 1, LIMIT as usize + 1, CanIndexCheckMode::ReadOnly)
}

pub fn check_index(shape: &[usize], index: &[usize]) -> Result<(), ErrorKind> {
    let is_index = index.len() == shape.len() && index.iter().zip(shape).all(|(i, len)| i < len);
    if is_index { Ok(()) } else { Err(ErrorKind::OutOfBounds) }
}

/// Whether an index has a next one, and which; the first one after the last.
pub fn next_index(shape: &[usize], index: &[usize], order: Order) -> (bool, Vec<usize>) {
    let mut next = index.to_vec();
    for k in 0..shape.len() {
        let axis = if order == Order::RowMajor { shape.len() - 1 - k } else { k };
        if next[axis] + 1 < shape[axis] {
            next[axis] += 1;
            return (true, next);
        }
        next[axis] = 0;
    }
    (false, next)
}

/// The strides of a shape, read in an order; all 0 where the shape has no index.
pub fn strides_in(shape: &[usize], order: Order) -> Result<Vec<isize>, ErrorKind> {
    check_size(shape)?;
    let product_after = |axis: usize| match order {
        Order::RowMajor => size(&shape[axis + 1..]),
        Order::ColumnMajor => size(&shape[..axis]),
    };
    let empty = is_empty(shape);
    Ok((0..shape.len()).map(|axis| if empty { 0 } else { product_after(axis) as isize }).collect())
}

/// The index that has `flat` others before it.
pub fn unravel(shape: &[usize], order: Order, mut flat: i128) -> Vec<usize> {
    let mut index = vec![0; shape.len()];
    for k in 0..shape.len() {
        let axis = if order == Order::RowMajor { shape.len() - 1 - k } else { k };
        index[axis] = (flat % shape[axis] as i128) as usize;
        flat /= shape[axis] as i128;
    }
    index
}

pub fn indices(shape: &[usize], order: Order) -> Vec<Vec<usize>> {
    (0..size(shape)).map(|flat| unravel(shape, order, flat)).collect()
}

/// The place of an index, which may lie anywhere.
pub fn place_at(start: i128, strides: &[isize], index: &[usize]) -> i128 {
    index.iter().zip(strides).fold(start, |place, (i, stride)| place + *i as i128 * *stride as i128)
}

pub fn places(start: i128, shape: &[usize], strides: &[isize], order: Order) -> Vec<i128> {
    indices(shape, order).iter().map(|index| place_at(start, strides, index)).collect()
}

/// The places of an array whose strides may be any numbers, from 0.
pub fn places_of_wide(shape: &[usize], strides: &[i128], order: Order) -> Vec<i128> {
    let place = |index: &Vec<usize>| index.iter().zip(strides).map(|(i, stride)| *i as i128 * stride).sum();
    indices(shape, order).iter().map(place).collect()
}

pub fn is_layout(shape: &[usize], strides: &[isize], order: Order) -> bool {
    let mut product = 1i128;
    let mut fits = true;
    for k in 0..shape.len() {
        let axis = if order == Order::RowMajor { shape.len() - 1 - k } else { k };
        fits &= shape[axis] == 1 || strides[axis] as i128 == product;
        product *= shape[axis] as i128;
    }
    is_empty(shape) || fits
}

/// Whether the places are consecutive numbers, one index at each; by the rule on strides where there is no index
/// or are too many.
pub fn is_contiguous(shape: &[usize], strides: &[isize]) -> bool {
    if is_empty(shape) || size(shape) > 2_000 {
        return is_contiguous_by_rule(shape, strides);
    }
    let mut places = places(0, shape, strides, Order::RowMajor);
    places.sort_unstable();
    places.windows(2).all(|pair| pair[0] + 1 == pair[1])
}

fn is_contiguous_by_rule(shape: &[usize], strides: &[isize]) -> bool {
    if strides_in(shape, Order::RowMajor).as_deref() == Ok(strides) {
        return true;
    }
    if shape.len() == 1 {
        return shape[0] <= 1 || strides[0] == -1;
    }
    let mut axes: Vec<usize> = (0..shape.len()).collect();
    axes.sort_by_key(|axis| strides[*axis].unsigned_abs());
    let fits = |k: usize| {
        let smaller: i128 = axes[..k].iter().map(|axis| shape[*axis] as i128).product();
        shape[axes[k]] == 1 || strides[axes[k]].unsigned_abs() as i128 == smaller
    };
    (0..axes.len()).all(fits)
}
