//! Slices, elements and arguments as values, however the elements are kept.

use crate::shapes::values::{assert_distinct, hash_of};
use ndarray_layout::SliceInfoElem::{Index, NewAxis};
use ndarray_layout::{
    ErrorKind, Fit, Ix1, Ix2, Lengths, Slice, SliceInfoElem, check_elems, check_slice, do_collapse_axis,
    first_elems_intersection_sorted, first_intersection, first_intersection_sorted, from_kind, in_ndim_of, new_ixdyn,
    out_ndim_of, slices_intersect, unsigned,
};

/// Slices that differ in one part.
fn different_slices() -> [Slice; 4] {
    let slice = Slice::new(1, Some(4), 2);
    [slice, Slice { start: -1, ..slice }, Slice { end: None, ..slice }, Slice { step: -2, ..slice }]
}

/// Elements that differ.
fn different_elems() -> [SliceInfoElem; 6] {
    let [first, _, second, third] = different_slices();
    [first.into(), second.into(), third.into(), 1_isize.into(), (-1_i32).into(), ndarray_layout::NewAxis.into()]
}

#[test]
fn equal_slices_and_elements() {
    assert_distinct(&different_slices());
    assert_distinct(&different_elems());
    assert_eq!(hash_of(&different_slices()), hash_of(&different_slices()));
    assert_eq!(hash_of(&different_elems()), hash_of(&different_elems()));
}

#[test]
fn elements_in_lists_and_arrays() {
    let (dim, elems, whole) = (Ix2(4, 5), [Index(-1), NewAxis, Index(0)], [SliceInfoElem::from(..); 2]);
    assert_eq!((in_ndim_of(&elems), out_ndim_of(&elems)), (2, 1));
    assert_eq!(check_elems(&[4, 0], &elems, Fit::Strict), Err(from_kind(ErrorKind::OutOfBounds)));
    assert_eq!(check_slice(&dim, &&elems[..], Fit::Strict), Ok(()));
    assert_eq!(slices_intersect(&dim, &elems, &&whole[..], Fit::Strict), Ok(true));
    let fault = Err(from_kind(ErrorKind::IncompatibleShape));
    assert_eq!(slices_intersect(&dim, &&whole[..], &[whole[0]], Fit::Strict), fault);
}

// The indices of an axis of 10,000 coordinates as arguments, from the first one on and once more the first.
#[test]
fn ten_thousand_arguments() {
    let slices: Vec<[SliceInfoElem; 1]> = (0..10_000).chain([0]).map(|index| [Index(index)]).collect();
    let reversed: Vec<_> = slices.iter().rev().copied().collect();
    std::thread::scope(|scope| {
        for (part, pair) in [(&slices[1..], None), (&slices, Some((0, 10_000))), (&reversed[1..], None)] {
            scope.spawn(move || assert_eq!(first_intersection(&Ix1(10_000), part, Fit::Strict), Ok(pair)));
        }
    });
}

/// Tiles of the length 2 along each of `axes` axes, `2^bits` along each, in Morton order: the bits of a tile's number are those
/// of its coordinates, in turn.
fn tiles_in_morton_order(axes: usize, bits: usize) -> Vec<Vec<SliceInfoElem>> {
    let bit_of = |number: usize, axis: usize, bit: usize| ((number >> (bit * axes + axis)) & 1) << bit;
    let coordinate = |number, axis| (0..bits).map(|bit| bit_of(number, axis, bit)).sum::<usize>();
    let elem = |at: isize| SliceInfoElem::from(2 * at..2 * at + 2);
    let tile = |number| (0..axes).map(|axis| elem(coordinate(number, axis) as isize)).collect();
    (0..1 << (axes * bits)).map(tile).collect()
}

// No two tiles of a grid share an index, and one that is moved by 1 shares one with each of those that it then covers in part.
#[test]
fn grids_in_morton_order() {
    for (axes, bits) in [(1, 7), (2, 4), (3, 3), (5, 2)] {
        let (dim, mut tiles) = (new_ixdyn(&vec![2 << bits; axes]).unwrap(), tiles_in_morton_order(axes, bits));
        for order in 0..3 {
            assert_eq!(first_intersection_sorted(&dim, &tiles, Fit::Strict), Ok(None));
            assert_eq!(first_elems_intersection_sorted(dim.slice(), &tiles, Fit::Strict), Ok(None));
            let moved = tiles.len() / (order + 2);
            let kept = std::mem::replace(&mut tiles[moved], vec![SliceInfoElem::from(1..3); axes]);
            let found = first_intersection_sorted(&dim, &tiles, Fit::Strict).unwrap().expect("two that share an index");
            assert!(found.0 == moved || found.1 == moved, "{found:?}");
            assert_eq!(slices_intersect(&dim, &tiles[found.0], &tiles[found.1], Fit::Strict), Ok(true));
            tiles[moved] = kept;
            let third = tiles.len() / 3;
            tiles.rotate_left(third);
        }
    }
}

// Blocks that lie around one another like the arms of a pinwheel, which no cut parts.
#[test]
fn blocks_that_no_cut_parts() {
    let block =
        |rows: [isize; 2], columns: [isize; 2]| [rows, columns].map(|[start, end]| SliceInfoElem::from(start..end));
    let mut blocks = vec![
        block([0, 1], [0, 2]),
        block([0, 2], [2, 3]),
        block([2, 3], [1, 3]),
        block([1, 3], [0, 1]),
        block([1, 2], [1, 2]),
    ];
    assert_eq!(first_intersection_sorted(&Ix2(3, 3), &blocks, Fit::Strict), Ok(None));
    blocks[4] = block([1, 2], [1, 3]);
    assert_eq!(first_intersection_sorted(&Ix2(3, 3), &blocks, Fit::Strict), Ok(Some((1, 4))));
}

#[test]
fn one_coordinate_of_an_axis() {
    let mut lens = Ix2(2, 3);
    assert_eq!(do_collapse_axis(&mut lens, &Ix2(unsigned(-3), 1), 0, 1), -3);
    assert_eq!(lens, Ix2(1, 3));
}
