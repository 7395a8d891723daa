//! Shapes of any type as values: copied, sent, compared, added up, iterated over.

use crate::{OfAny, for_each_type};
use ndarray_layout::{Dim, Dimension, Ix2, IxDyn, Lengths, all_indices, indices_iter_f};
use std::thread;

fn copied<D: Dimension>(shape: &D) -> (D, D) {
    (shape.clone(), Dim(shape.clone()))
}

fn size_in_a_thread<D: Dimension + 'static>(shape: D) -> usize {
    thread::spawn(move || shape.size()).join().expect("a size")
}

fn total<D: Dimension>(shapes: &[D]) -> D {
    let mut total = shapes[0].clone();
    for shape in &shapes[1..] {
        total += shape;
    }
    total
}

fn lies_within<D: Dimension>(index: &D, shape: &D) -> bool {
    let mut room = shape.clone();
    room -= index;
    room *= &room.clone();
    room.slice().iter().all(|&square| square > 0)
}

struct Values;

impl OfAny for Values {
    fn call<D: Dimension + 'static>(&self, shape: D) {
        let (first, second) = copied(&shape);
        assert_eq!((&first, &second), (&shape, &shape));
        assert_eq!(size_in_a_thread(shape.clone()), shape.size());
        let tripled: Vec<usize> = shape.slice().iter().map(|len| 3 * len).collect();
        assert_eq!(total(&[shape.clone(), first, second]).slice(), tripled);
        let mut lowest = shape.clone();
        lowest -= &shape;
        assert!(lies_within(&lowest, &shape) && lowest.slice().iter().all(|&coordinate| coordinate == 0));
        assert_eq!(D::default().ndim(), D::NDIM.unwrap_or(1));
        assert_eq!(D::default().slice().iter().sum::<usize>(), 0);
    }
}

#[test]
fn a_shape_of_any_type_is_a_value() {
    for_each_type(&Values);
}

/// The indices of a shape, as the patterns that ndarray's users take apart.
fn patterns<D: Dimension>(shape: D) -> Vec<D::Pattern> {
    let indices = all_indices(shape).expect("memory");
    let copy = indices.clone();
    assert!(copy.into_iter().eq(indices.clone()));
    indices.into_iter().collect()
}

fn reversed<D: Dimension>(shape: D) -> Vec<D> {
    let indices = indices_iter_f(shape).expect("memory");
    assert_eq!(indices.len(), indices.clone().count());
    indices.map(Dim).collect()
}

struct AllIndices;

impl OfAny for AllIndices {
    fn call<D: Dimension + 'static>(&self, shape: D) {
        let rows = patterns(shape.clone());
        let columns = reversed(shape.clone());
        assert_eq!((rows.len(), columns.len()), (shape.size(), shape.size()));
        let mut next = shape.first_index().expect("memory");
        for pattern in rows {
            let index = next.expect("an index");
            assert_eq!(pattern, index.clone().into_pattern());
            assert!(lies_within(&Dim(pattern), &shape));
            next = shape.next_for(index);
        }
        assert_eq!(next, None);
        for (number, index) in columns.iter().enumerate() {
            let strides = shape.fortran_strides().expect("memory");
            assert_eq!(D::stride_offset(index, &strides), number as isize);
        }
    }
}

#[test]
fn the_indices_of_any_shape_are_iterated_over() {
    for_each_type(&AllIndices);
}

#[test]
fn indices_have_the_order_and_the_patterns_of_ndarray() {
    assert_eq!(patterns(Ix2(2, 2)), [(0, 0), (0, 1), (1, 0), (1, 1)]);
    assert_eq!(patterns(IxDyn(&[1, 2])), [IxDyn(&[0, 0]), IxDyn(&[0, 1])]);
    assert_eq!(reversed(IxDyn(&[2, 2])), [[0, 0], [1, 0], [0, 1], [1, 1]].map(|index| IxDyn(&index)));
    assert!(patterns(IxDyn(&[2, 0, 3])).is_empty());
    assert_eq!(patterns(IxDyn(&[])), [IxDyn(&[])]);
    let long = patterns(IxDyn(&[1, 2, 1, 1, 2]));
    assert_eq!((long.len(), &long[3]), (4, &IxDyn(&[0, 1, 0, 0, 1])));
}

#[test]
fn a_copy_of_an_iterator_goes_on_by_itself() {
    let mut indices = all_indices(IxDyn(&[2, 3])).expect("memory").into_iter();
    indices.next();
    let copy = indices.clone();
    assert_eq!((indices.len(), copy.len()), (5, 5));
    assert_eq!(indices.next(), Some(IxDyn(&[0, 1])));
    assert_eq!(copy.fold(0, |sum, index| sum + index.slice()[1]), 1 + 2 + 1 + 2);
    assert_eq!(format!("{indices:?}"), "IndicesIter { left: 4, .. }");
}
