//! Other shapes: broadcasting, merging, reshaping.

use super::layouts::{check_size, is_empty, place_at, size, unravel};
use ndarray_layout::{ErrorKind, Order};

pub fn co_broadcast(first: &[usize], second: &[usize]) -> Result<Vec<usize>, ErrorKind> {
    let count = first.len().max(second.len());
    let padded = |shape: &[usize]| [vec![1; count - shape.len()], shape.to_vec()].concat();
    let pairs = padded(first).into_iter().zip(padded(second));
    pairs
        .map(|pair| match pair {
            (a, b) if a == b || b == 1 => Ok(a),
            (1, b) => Ok(b),
            _ => Err(ErrorKind::IncompatibleShape),
        })
        .collect()
}

/// The strides with which a view is read as one of a shape.
pub fn broadcast_strides(shape: &[usize], strides: &[isize], target: &[usize]) -> Result<Vec<isize>, ErrorKind> {
    if co_broadcast(shape, target)?.as_slice() != target {
        return Err(ErrorKind::IncompatibleShape);
    }
    check_size(target)?;
    let new_axes = target.len() - shape.len();
    let stride_of = |axis: usize| match axis.checked_sub(new_axes) {
        Some(old) if shape[old] == target[axis] => strides[old],
        _ => 0,
    };
    Ok((0..target.len()).map(stride_of).collect())
}

/// Whether axis `take` was merged into axis `into`; the shape and strides are changed if so.
pub fn merge_axes(shape: &mut [usize], strides: &mut [isize], take: usize, into: usize) -> Result<bool, ErrorKind> {
    if take >= shape.len() || into >= shape.len() {
        return Err(ErrorKind::OutOfBounds);
    }
    if take == into {
        return Err(ErrorKind::Unsupported);
    }
    let merged = shape[take] as i128 * shape[into] as i128;
    let one_stride = strides[take] as i128 == strides[into] as i128 * shape[into] as i128;
    if shape[take] > 1 && shape[into] > 1 && !one_stride {
        return Ok(false);
    }
    if shape[take] > 1 && shape[into] <= 1 {
        strides[into] = strides[take];
    }
    shape[into] = merged as usize;
    shape[take] = usize::from(merged != 0);
    Ok(true)
}

/// A list as it is read in an order.
fn as_read<T: Copy>(list: &[T], order: Order) -> Vec<T> {
    match order {
        Order::RowMajor => list.to_vec(),
        Order::ColumnMajor => list.iter().rev().copied().collect(),
    }
}

/// The product of no lengths, of the first, of the first two, and so on.
fn cumulative_products(shape: &[usize]) -> Vec<i128> {
    (0..=shape.len()).map(|count| size(&shape[..count])).collect()
}

/// The products of the lengths read before a loose joint.
fn loose_joints(shape: &[usize], strides: &[isize]) -> Vec<i128> {
    let longer: Vec<usize> = (0..shape.len()).filter(|axis| shape[*axis] > 1).collect();
    let is_loose =
        |slower: usize, faster: usize| strides[slower] as i128 != shape[faster] as i128 * strides[faster] as i128;
    let loose = longer.windows(2).filter(|pair| is_loose(pair[0], pair[1]));
    loose.map(|pair| size(&shape[..pair[1]])).collect()
}

/// The strides of `to`, read row-major, along which the places of a layout stand in the same order.
fn reshape_as_read(shape: &[usize], strides: &[isize], to: &[usize]) -> Result<Vec<isize>, ErrorKind> {
    let products = cumulative_products(to);
    let is_bad = |joint: &i128| *joint < size(to) && !products.contains(joint);
    if loose_joints(shape, strides).iter().any(is_bad) {
        return Err(ErrorKind::IncompatibleLayout);
    }
    if size(shape) != size(to) {
        return Err(ErrorKind::IncompatibleShape);
    }
    let old_products = cumulative_products(shape);
    let mut new_strides: Vec<isize> = Vec::new();
    for axis in 0..to.len() {
        new_strides.push(match to[axis] {
            1 if old_products.contains(&products[axis]) => stride_of_short_axis(shape, strides, to, axis),
            1 => new_strides[axis - 1],
            _ => {
                let second = unravel(shape, Order::RowMajor, size(&to[axis + 1..]));
                place_at(0, strides, &second) as isize
            }
        });
    }
    Ok(new_strides)
}

/// The stride of the axis of length 1 that stands at the same product and has the same number there, or 1.
fn stride_of_short_axis(shape: &[usize], strides: &[isize], to: &[usize], axis: usize) -> isize {
    let product = size(&to[..axis]);
    let standing_there = |shape: &[usize], axis: &usize| shape[*axis] == 1 && size(&shape[..*axis]) == product;
    let number = (0..axis).filter(|other| standing_there(to, other)).count();
    let mut olds = (0..shape.len()).filter(|old| standing_there(shape, old));
    olds.nth(number).map_or(1, |old| strides[old])
}

/// The strides of `to` that keep the list of places in an order.
pub fn reshape(shape: &[usize], strides: &[isize], order: Order, to: &[usize]) -> Result<Vec<isize>, ErrorKind> {
    check_size(to)?;
    if is_empty(shape) != is_empty(to) {
        return Err(ErrorKind::IncompatibleShape);
    }
    if is_empty(to) {
        return Ok(vec![0; to.len()]);
    }
    let (shape, strides, to) = (as_read(shape, order), as_read(strides, order), as_read(to, order));
    Ok(as_read(&reshape_as_read(&shape, &strides, &to)?, order))
}

/// The only strides of `to` that might have these places in an order, from the first place on.
pub fn forced_strides(places: &[i128], to: &[usize], order: Order) -> Vec<i128> {
    let to = as_read(to, order);
    let second = |axis: usize| places[size(&to[axis + 1..]) as usize % places.len()] - places[0];
    let strides: Vec<i128> = (0..to.len()).map(|axis| if to[axis] == 1 { 0 } else { second(axis) }).collect();
    as_read(&strides, order)
}

pub fn permuted_axes(
    shape: &[usize],
    strides: &[isize],
    axes: &[usize],
) -> Result<(Vec<usize>, Vec<isize>), ErrorKind> {
    let mut sorted = axes.to_vec();
    sorted.sort_unstable();
    if sorted != (0..shape.len()).collect::<Vec<_>>() {
        return Err(ErrorKind::IncompatibleShape);
    }
    let shape = axes.iter().map(|axis| shape[*axis]).collect();
    Ok((shape, axes.iter().map(|axis| strides[*axis]).collect()))
}
