//! Other shapes: broadcasting, merging, reshaping, permuting.

use crate::arguments;
use crate::compare::{CALLS, ORDERS, compare};
use crate::model::{layouts, shapes as model};
use crate::numbers::Numbers;
use crate::types::{axes_of, dimension, lists_of, lowest, of_types, signed_list, strides_of};
use ndarray_layout::{
    Axis, ErrorKind, IxDyn, LayoutError, Lengths, Order, ShapeError, co_broadcast, fill_common_shape, from_kind,
    have_common_shape, reshape_dim,
};
use std::sync::atomic::{AtomicUsize, Ordering::Relaxed};

/// The common shape of two, whose types fix the count of axes or don't.
fn common<A: Lengths, B: Lengths>(first: &[usize], second: &[usize]) -> Result<Vec<usize>, LayoutError> {
    let common: B = co_broadcast(&dimension::<A>(first), &dimension::<IxDyn>(second))?;
    Ok(common.slice().to_vec())
}

/// The common shape of two lists, of which the first is no shorter.
fn common_list(longer: &[usize], shorter: &[usize]) -> Result<Vec<usize>, LayoutError> {
    if !have_common_shape(longer, shorter) {
        return Err(from_kind(ErrorKind::IncompatibleShape).into());
    }
    let mut common = vec![9; longer.len()];
    fill_common_shape(longer, shorter, &mut common);
    Ok(common)
}

#[test]
fn common_shapes_are_the_models() {
    let arguments = |numbers: &mut Numbers| {
        let first = numbers.shape();
        let mut second = arguments::target(numbers, &first);
        for len in &mut second {
            if numbers.once_in(4) {
                *len = 1;
            }
        }
        if numbers.once_in(2) { (second, first) } else { (first, second) }
    };
    compare(
        "co_broadcast",
        &["Ok", "IncompatibleShape"],
        arguments,
        |(first, second)| {
            let mut results = of_types!(Some(first.len()), D => common::<D, IxDyn>(first, second));
            results.extend(of_types!(Some(first.len().max(second.len())), D => common::<IxDyn, D>(first, second)));
            let is_longer = first.len() >= second.len();
            results.push(if is_longer { common_list(first, second) } else { common_list(second, first) });
            results
        },
        |(first, second)| model::co_broadcast(first, second),
    );
}

/// The strides of a layout that is read as one of a shape.
fn broadcast<A: Lengths, B: Lengths>(
    shape: &[usize],
    strides: &[isize],
    target: &[usize],
) -> Result<Vec<isize>, LayoutError> {
    let view = lowest::<A>(shape, strides)?;
    let wide = view.broadcast(&dimension::<B>(target))?;
    assert_eq!((wide.start(), wide.dim().slice()), (view.start(), target));
    Ok(signed_list(wide.strides()))
}

#[test]
fn strides_of_broadcasts_are_the_models() {
    let arguments = |numbers: &mut Numbers| {
        let (shape, strides) = numbers.layout();
        let target = arguments::target(numbers, &shape);
        (shape, strides, target)
    };
    compare(
        "broadcast_strides",
        &["Ok", "IncompatibleLayout", "Overflow", "IncompatibleShape"],
        arguments,
        |(shape, strides, target)| {
            let mut results = of_types!(axes_of(shape, strides), D => broadcast::<D, IxDyn>(shape, strides, target));
            results.extend(of_types!(Some(target.len()), D => broadcast::<IxDyn, D>(shape, strides, target)));
            results
        },
        |(shape, strides, target)| {
            layouts::check_valid(shape, strides)?;
            model::broadcast_strides(shape, strides, target)
        },
    );
}

type Merged = (bool, Vec<usize>, Vec<isize>);

/// Whether axis `take` was merged into axis `into`, and what the layout is then; an error changes nothing.
fn merged<D: Lengths>(shape: &[usize], strides: &[isize], take: usize, into: usize) -> Result<Merged, ShapeError> {
    let mut view = lowest::<D>(shape, strides)?;
    let before = lists_of(&view);
    let merged = view.merge(Axis(take), Axis(into));
    let after = lists_of(&view);
    assert!(merged == Ok(true) || after == before, "changed without a merge: {before:?}");
    assert_eq!(after.start, before.start);
    Ok((merged?, after.shape, after.strides))
}

#[test]
fn merged_axes_are_the_models() {
    let arguments = |numbers: &mut Numbers| {
        let (shape, strides) = numbers.layout();
        let (take, into) = (arguments::axis(numbers, &shape), arguments::axis(numbers, &shape));
        (shape, strides, take, into)
    };
    let merges = AtomicUsize::new(0);
    compare(
        "merge_axes",
        &["Ok", "IncompatibleLayout", "Overflow", "OutOfBounds", "Unsupported"],
        arguments,
        |(shape, strides, take, into)| of_types!(axes_of(shape, strides), D => merged::<D>(shape, strides, *take, *into)),
        |(shape, strides, take, into)| {
            layouts::check_valid(shape, strides)?;
            let (mut new_shape, mut new_strides) = (shape.clone(), strides.clone());
            let answer = model::merge_axes(&mut new_shape, &mut new_strides, *take, *into)?;
            merges.fetch_add(usize::from(answer), Relaxed);
            Ok((answer, new_shape, new_strides))
        },
    );
    println!("merge_axes: {} merged", merges.load(Relaxed));
    assert!(merges.load(Relaxed) > 10_000, "{} merged", merges.load(Relaxed));
}

/// The strides of a layout of another shape. By a call on the view, and by ndarray's function where it may be called.
fn reshaped<A: Lengths, B: Lengths>(
    shape: &[usize],
    strides: &[isize],
    to: &[usize],
    order: Order,
) -> Result<Vec<isize>, LayoutError> {
    let view = lowest::<A>(shape, strides)?;
    let to_dim = dimension::<B>(to);
    let other = view.reshape(&to_dim, order);
    if layouts::check_size(to).is_ok() && !layouts::is_empty(shape) && !layouts::is_empty(to) {
        let direct = reshape_dim(&dimension::<A>(shape), &strides_of::<A>(strides), &to_dim, order);
        assert_eq!(
            direct.as_ref().map_err(LayoutError::clone),
            other.as_ref().map(|view| view.strides()).map_err(LayoutError::clone)
        );
    }
    let other = other?;
    assert_eq!((other.start(), other.dim().slice()), (view.start(), to));
    Ok(signed_list(other.strides()))
}

#[test]
fn strides_of_reshapes_are_the_models() {
    let arguments = |numbers: &mut Numbers| {
        let (shape, strides) = numbers.layout();
        let to = arguments::other_shape(numbers, &shape);
        (shape, strides, to, numbers.pick(&ORDERS))
    };
    compare(
        "reshape_dim",
        &["Ok", "IncompatibleLayout", "Overflow", "IncompatibleShape"],
        arguments,
        |(shape, strides, to, order)| {
            let mut results = of_types!(axes_of(shape, strides), D => reshaped::<D, IxDyn>(shape, strides, to, *order));
            results.extend(of_types!(Some(to.len()), D => reshaped::<IxDyn, D>(shape, strides, to, *order)));
            results
        },
        |(shape, strides, to, order)| {
            layouts::check_valid(shape, strides)?;
            let new_strides = model::reshape(shape, strides, *order, to)?;
            if layouts::size(shape) <= 1_000 {
                let old = layouts::places(0, shape, strides, *order);
                assert_eq!(layouts::places(0, to, &new_strides, *order), old, "other places: {shape:?} {strides:?}");
            }
            Ok(new_strides)
        },
    );
}

/// Where a reshape is an error for its strides, the only ones that could do give other places.
#[test]
fn reshapes_without_strides_have_none() {
    let mut numbers = Numbers::new(11);
    let mut refused = 0;
    for _ in 0..CALLS {
        let (shape, strides) = numbers.layout();
        let (to, order) = (arguments::other_shape(&mut numbers, &shape), numbers.pick(&ORDERS));
        let size = layouts::size(&shape);
        if layouts::check_valid(&shape, &strides).is_err() || size != layouts::size(&to) || size > 1_000 {
            continue;
        }
        let result = reshaped::<IxDyn, IxDyn>(&shape, &strides, &to, order);
        if matches!(result, Err(LayoutError::Shape(error)) if error.kind() == ErrorKind::IncompatibleLayout) {
            refused += 1;
            let old = layouts::places(0, &shape, &strides, order);
            let forced = model::forced_strides(&old, &to, order);
            assert_ne!(layouts::places_of_wide(&to, &forced, order), old, "{shape:?} {strides:?} to {to:?} {order:?}");
        }
    }
    println!("reshapes_without_strides_have_none: {refused} refused");
    assert!(refused > 5_000, "{refused} refused");
}

/// The shape and the strides with the axes in another order.
fn permuted<D: Lengths>(
    shape: &[usize],
    strides: &[isize],
    axes: &[usize],
) -> Result<(Vec<usize>, Vec<isize>), LayoutError> {
    let view = lowest::<D>(shape, strides)?;
    let axes: Vec<Axis> = axes.iter().map(|axis| Axis(*axis)).collect();
    let turned = view.permuted_axes(&axes)?;
    assert_eq!(turned.start(), view.start());
    let turned = lists_of(&turned);
    Ok((turned.shape, turned.strides))
}

#[test]
fn permuted_axes_are_the_models() {
    let arguments = |numbers: &mut Numbers| {
        let (shape, strides) = numbers.layout();
        let axes = arguments::axes(numbers, &shape);
        (shape, strides, axes)
    };
    compare(
        "permuted_axes",
        &["Ok", "IncompatibleLayout", "Overflow", "IncompatibleShape"],
        arguments,
        |(shape, strides, axes)| of_types!(axes_of(shape, strides), D => permuted::<D>(shape, strides, axes)),
        |(shape, strides, axes)| {
            layouts::check_valid(shape, strides)?;
            model::permuted_axes(shape, strides, axes)
        },
    );
}
