//! The indices of shapes.

use ndarray_layout::compat::{Dim, Dimension, Ix2, IxDyn, indices, indices_iter_f};

#[test]
fn indices_come_in_either_order() {
    let rows: Vec<(usize, usize)> = indices((2, 3)).into_iter().collect();
    assert_eq!(rows, [(0, 0), (0, 1), (0, 2), (1, 0), (1, 1), (1, 2)]);
    let columns: Vec<(usize, usize)> = indices_iter_f(Ix2(2, 3)).collect();
    assert_eq!(columns, [(0, 0), (1, 0), (0, 1), (1, 1), (0, 2), (1, 2)]);
    assert!(indices(vec![2, 2]).into_iter().eq([[0, 0], [0, 1], [1, 0], [1, 1]].map(|index| IxDyn(&index))));
    assert_eq!((indices(()).into_iter().count(), indices((4, 0)).into_iter().count()), (1, 0));
    assert_eq!((indices_iter_f(()).count(), indices_iter_f(IxDyn(&[4, 0, 2])).count()), (1, 0));
}

#[test]
fn an_iterator_knows_its_length() {
    let mut iter = indices([5, 3]).into_iter();
    for left in (0..15).rev() {
        assert!(iter.next().is_some());
        assert_eq!((iter.len(), iter.clone().count()), (left, left));
    }
    assert_eq!((iter.next(), iter.len()), (None, 0));
    let mut iter = indices_iter_f(Dim(vec![5, 3]));
    assert_eq!((iter.nth(6), iter.len()), (Some(IxDyn(&[1, 1])), 8));
}

/// Each index of a shape, with its place in row-major order.
fn numbered<D: Dimension>(shape: D) -> impl Iterator<Item = (usize, D::Pattern)> {
    indices(shape).into_iter().enumerate()
}

#[test]
fn indices_of_a_generic_function_are_patterns() {
    assert_eq!(numbered(Ix2(4, 5)).nth(7), Some((7, (1, 2))));
    assert_eq!(numbered(IxDyn(&[4, 5])).nth(7), Some((7, IxDyn(&[1, 2]))));
}
