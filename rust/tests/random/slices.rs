//! Slices, and what two of them share.

use crate::arguments;
use crate::compare::{CALLS, FITS, compare};
use crate::model::{View, layouts, slices as model};
use crate::numbers::Numbers;
use crate::types::{axes_of, dimension, lists_of, of_types, strided};
use ndarray_layout::CanIndexCheckMode::ReadOnly;
use ndarray_layout::{
    Fit, IxDyn, LayoutError, Lengths, SliceInfoElem, StrideShape, Strided, Strides, check_slice, first_intersection,
    first_intersection_sorted, slices_intersect,
};
use std::sync::atomic::{AtomicUsize, Ordering::Relaxed};

const SLICE: [&str; 5] = ["Ok", "Overflow", "IncompatibleShape", "OutOfBounds", "Unsupported"];

/// A slice of a view of one type as a view of another.
fn sliced<A: Lengths, B: Lengths>(view: &View, elems: &[SliceInfoElem], fit: Fit) -> Result<View, LayoutError> {
    let part = strided::<A>(view)?.slice::<B, _>(&elems, fit)?;
    Ok(lists_of(&part))
}

/// How many axes a slice leaves.
fn axes_left(elems: &[SliceInfoElem]) -> usize {
    elems.iter().filter(|elem| !elem.is_index()).count()
}

#[test]
fn slices_are_the_models() {
    let arguments = |numbers: &mut Numbers| {
        let view = arguments::view(numbers);
        let elems = numbers.elems(&view.shape);
        (view, elems, numbers.pick(&FITS))
    };
    let outcomes = [&SLICE[..], &["IncompatibleLayout"]].concat();
    compare(
        "slice",
        &outcomes,
        arguments,
        |(view, elems, fit)| {
            let axes = axes_of(&view.shape, &view.strides);
            let mut results = of_types!(axes, D => sliced::<D, IxDyn>(view, elems, *fit));
            results.extend(of_types!(Some(axes_left(elems)), D => sliced::<IxDyn, D>(view, elems, *fit)));
            results
        },
        |(view, elems, fit)| {
            layouts::check_view(view)?;
            model::slice(view, elems, *fit)
        },
    );
}

/// The view of a shape in row-major order.
fn of_shape<D: Lengths>(shape: &[usize]) -> Result<Strided<D>, LayoutError> {
    Strided::from_shape(StrideShape { dim: dimension(shape), strides: Strides::C }, 1, usize::MAX, ReadOnly)
}

/// How many indices a slice leaves of a shape.
fn count_of<D: Lengths>(shape: &[usize], elems: &[SliceInfoElem], fit: Fit) -> Result<i128, LayoutError> {
    let view = of_shape::<D>(shape)?;
    check_slice(view.dim(), &elems, fit)?;
    Ok(view.picked(&elems, fit)? as i128)
}

#[test]
fn counts_of_slices_are_the_models() {
    let arguments = |numbers: &mut Numbers| {
        let shape = numbers.shape();
        let elems = numbers.elems(&shape);
        (shape, elems, numbers.pick(&FITS))
    };
    compare(
        "picked",
        &SLICE,
        arguments,
        |(shape, elems, fit)| of_types!(Some(shape.len()), D => count_of::<D>(shape, elems, *fit)),
        |(shape, elems, fit)| {
            layouts::check_size(shape)?;
            model::picked(shape, elems, *fit)
        },
    );
}

/// Whether two slices of a shape share an index, by the view and by ndarray's function.
fn intersect<D: Lengths>(
    shape: &[usize],
    first: &[SliceInfoElem],
    second: &[SliceInfoElem],
    fit: Fit,
) -> Result<bool, LayoutError> {
    let view = of_shape::<D>(shape)?;
    let result = view.meets(&first, &second, fit);
    assert_eq!(slices_intersect(view.dim(), &first, &second, fit), result);
    Ok(result?)
}

#[test]
fn intersections_are_the_models() {
    let long = [1_000, 99_991, 1 << 40, isize::MAX as usize];
    let arguments = |numbers: &mut Numbers| loop {
        let mut shape = numbers.shape();
        if numbers.once_in(3) {
            shape = vec![numbers.pick(&long)];
        }
        let (first, second) = (numbers.elems(&shape), numbers.elems(&shape));
        let fit = numbers.pick(&FITS);
        let expected = match layouts::check_size(&shape) {
            Err(kind) => Some(Err(kind)),
            Ok(()) => model::slices_intersect(&shape, &first, &second, fit),
        };
        if let Some(expected) = expected {
            return (shape, first, second, fit, expected);
        }
    };
    let yes = AtomicUsize::new(0);
    compare(
        "slices_intersect",
        &SLICE,
        arguments,
        |(shape, first, second, fit, _)| of_types!(Some(shape.len()), D => intersect::<D>(shape, first, second, *fit)),
        |(.., expected)| {
            yes.fetch_add(usize::from(*expected == Ok(true)), Relaxed);
            *expected
        },
    );
    println!("slices_intersect: {} yes", yes.load(Relaxed));
    assert!((10_000..CALLS - 10_000).contains(&yes.load(Relaxed)), "{} yes", yes.load(Relaxed));
}

/// Whether two of many slices of a shape share an index, by the view and by the functions. The two that they return do.
fn any_intersect<D: Lengths>(shape: &[usize], slices: &[Vec<SliceInfoElem>], fit: Fit) -> Result<bool, LayoutError> {
    let view = of_shape::<D>(shape)?;
    let found = view.first_intersection(slices, fit);
    assert_eq!(first_intersection(view.dim(), slices, fit), found);
    let sorted = view.first_intersection_sorted(slices, fit);
    assert_eq!(first_intersection_sorted(view.dim(), slices, fit), sorted);
    for (one, other) in [&found, &sorted].into_iter().filter_map(|found| found.as_ref().ok()?.as_ref()) {
        assert!(one < other);
        assert_eq!(view.meets(&slices[*one], &slices[*other], fit), Ok(true));
    }
    let (found, sorted) = (found.map(|pair| pair.is_some()), sorted.map(|pair| pair.is_some()));
    assert_eq!(sorted, found);
    Ok(found?)
}

/// Where the range of an element for an axis begins, as far as its order goes.
fn start_of(slice: &[SliceInfoElem], axis: usize) -> isize {
    match slice.get(axis) {
        Some(SliceInfoElem::Slice { start, .. }) => *start,
        Some(SliceInfoElem::Index(index)) => *index,
        _ => 0,
    }
}

/// Small slices of a shape that fit, without new axes, mostly in order along an axis, from the first or from the last.
fn small_slices(numbers: &mut Numbers, shape: &[usize]) -> Vec<Vec<SliceInfoElem>> {
    let step = [1, 1, 1, 2, -1, -3];
    let elem = |numbers: &mut Numbers, len: usize| {
        let start = numbers.below(len + 1);
        let end = (start + numbers.below(3)).min(len);
        if start < len && numbers.once_in(4) {
            return SliceInfoElem::Index(start as isize);
        }
        SliceInfoElem::Slice { start: start as isize, end: Some(end as isize), step: numbers.pick(&step) }
    };
    let count = if numbers.once_in(8) { 5 + numbers.below(30) } else { numbers.below(9) };
    let mut slices: Vec<Vec<_>> = (0..count).map(|_| shape.iter().map(|len| elem(numbers, *len)).collect()).collect();
    if !shape.is_empty() && !numbers.once_in(4) {
        let axis = numbers.below(shape.len());
        slices.sort_by_key(|slice| start_of(slice, axis));
        if numbers.once_in(2) {
            slices.reverse();
        }
    }
    slices
}

#[test]
fn first_intersections_are_the_models() {
    let arguments = |numbers: &mut Numbers| {
        let shape = numbers.small_shape();
        let mut slices = small_slices(numbers, &shape);
        if numbers.once_in(5) {
            slices.push(numbers.elems(&shape));
        }
        (shape, slices, numbers.pick(&FITS))
    };
    let yes = AtomicUsize::new(0);
    compare(
        "first_intersection",
        &["Ok", "IncompatibleShape", "OutOfBounds", "Unsupported"],
        arguments,
        |(shape, slices, fit)| of_types!(Some(shape.len()), D => any_intersect::<D>(shape, slices, *fit)),
        |(shape, slices, fit)| {
            slices.iter().try_for_each(|slice| model::picked(shape, slice, *fit).map(|_| ()))?;
            let meets = |one: &[SliceInfoElem], other: &[SliceInfoElem]| {
                model::slices_intersect(shape, one, other, *fit) == Some(Ok(true))
            };
            let some =
                slices.iter().enumerate().any(|(at, one)| slices[at + 1..].iter().any(|other| meets(one, other)));
            yes.fetch_add(usize::from(some), Relaxed);
            Ok(some)
        },
    );
    println!("first_intersection: {} yes", yes.load(Relaxed));
    assert!((10_000..CALLS - 10_000).contains(&yes.load(Relaxed)), "{} yes", yes.load(Relaxed));
}
