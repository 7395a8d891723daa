//! Views whose axes are turned and sorted, random ones beside a list of their places.

use crate::layouts::{Layout, rounds};
use crate::numbers::Numbers;
use crate::of_count;
use ndarray_layout::CanIndexCheckMode::ReadOnly;
use ndarray_layout::{IxDyn, Lengths, Order, Strided, signed, unsigned};

/// A layout of at most five axes, in any order and direction; in some of them indices share a place.
fn layout(numbers: &mut Numbers) -> Layout {
    if numbers.once_in(3) { Layout::shared(numbers) } else { Layout::random(numbers) }
}

/// The places of a view in row-major order.
fn places<D: Lengths>(view: &Strided<D>) -> Vec<usize> {
    view.iter_places(Order::RowMajor).collect()
}

/// The strides of a view.
fn strides<D: Lengths>(view: &Strided<D>) -> Vec<isize> {
    view.strides().slice().iter().map(|stride| signed(*stride)).collect()
}

/// A list in order.
fn sorted<T: Ord>(mut items: Vec<T>) -> Vec<T> {
    items.sort();
    items
}

/// Whether strides go forwards: none is negative, and none greater than one before it.
fn go_forwards(strides: &[isize]) -> bool {
    strides.iter().all(|stride| *stride >= 0) && strides.is_sorted_by(|one, later| one >= later)
}

/// Checks what the nearest view has of a view that has these places.
fn check<D: Lengths>(view: Strided<D>, expected: &[usize], layout: &Layout) {
    let forwards = go_forwards(&layout.strides);
    let nearest = view.nearest();
    let (shape, strides, places) = (nearest.dim().slice().to_vec(), strides(&nearest), places(&nearest));
    assert!(go_forwards(&strides), "{layout:?}: {strides:?}");
    assert_eq!(sorted(places.clone()), sorted(expected.to_vec()), "{layout:?}: {shape:?} {strides:?}");
    let axes = |shape: &[usize], strides: &[isize]| -> Vec<(usize, usize)> {
        sorted(shape.iter().copied().zip(strides.iter().map(|stride| stride.unsigned_abs())).collect())
    };
    assert_eq!(axes(&shape, &strides), axes(&layout.shape, &layout.strides), "{layout:?}");
    if forwards {
        assert_eq!((&shape, &strides, &places[..]), (&layout.shape, &layout.strides, expected), "{layout:?}");
    }
}

#[test]
fn the_nearest_view_has_each_place_as_often() {
    rounds(10_000, 16, |numbers| {
        let layout = layout(numbers);
        let expected = layout.places();
        check(layout.view(ReadOnly).unwrap(), &expected, &layout);
        of_count!(layout.shape.len(), D => {
            let view = layout.view(ReadOnly).unwrap().into_dimensionality::<D>().unwrap();
            check(view, &expected, &layout);
        });
    });
}

/// Checks what two views have that were turned and sorted alike.
fn check_both<D: Lengths>(view: Strided<D>, other: Strided<D>, (one, another): (&Layout, &Layout)) {
    let alone = one.view(ReadOnly).unwrap().nearest();
    let (first, second) = view.nearest_with(other);
    assert_eq!(first.start(), alone.start(), "{one:?}, {another:?}");
    assert_eq!((first.dim().slice(), strides(&first)), (alone.dim().slice(), strides(&alone)), "{one:?}, {another:?}");
    assert_eq!(first.dim(), second.dim(), "{one:?}, {another:?}");
    let pairs = |places: Vec<usize>, others: Vec<usize>| -> Vec<(usize, usize)> {
        assert_eq!(places.len(), others.len(), "{one:?}, {another:?}");
        sorted(places.into_iter().zip(others).collect())
    };
    let (expected, now) = (pairs(one.places(), another.places()), pairs(places(&first), places(&second)));
    assert_eq!(now, expected, "{one:?}, {another:?}");
    if go_forwards(&one.strides) {
        assert_eq!(
            (second.start(), strides(&second)),
            (another.start, another.strides.clone()),
            "{one:?}, {another:?}"
        );
    }
}

#[test]
fn two_views_turned_alike_have_each_pair_as_often() {
    rounds(10_000, 17, |numbers| {
        let one = layout(numbers);
        let another = Layout::of_shape(one.shape.clone(), numbers);
        let views = || (one.view(ReadOnly).unwrap(), another.view(ReadOnly).unwrap());
        let (view, other) = views();
        check_both(view, other, (&one, &another));
        of_count!(one.shape.len(), D => {
            let (view, other) = views();
            let (view, other) = (view.into_dimensionality::<D>().unwrap(), other.into_dimensionality::<D>().unwrap());
            check_both(view, other, (&one, &another));
        });
    });
}

#[test]
fn a_stride_without_an_opposite_is_the_greatest() {
    let strides = IxDyn(&[3, unsigned(isize::MIN), unsigned(-1), unsigned(isize::MIN)]);
    let view = Strided::from_parts(2, IxDyn(&[2, 1, 3, 1]), strides, 1, 6, ReadOnly).unwrap();
    let nearest = view.nearest();
    assert_eq!((nearest.start(), nearest.dim()), (0, &IxDyn(&[1, 1, 2, 3])));
    assert_eq!(nearest.strides(), &IxDyn(&[unsigned(isize::MAX), unsigned(isize::MAX), 3, 1]));
    assert_eq!(places(&nearest), [0, 1, 2, 3, 4, 5]);
}
