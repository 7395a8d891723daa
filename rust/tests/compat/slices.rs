//! Slices of an axis, and slices that share an index.

use crate::back;
use ndarray_layout::compat::{
    Dim, Ix1, Ix2, Ix3, IxDyn, NewAxis, Slice, SliceInfo, SliceInfoElem, abs_index, arith_seq_intersect, do_slice,
    extended_gcd, s, slice_min_max, slices_intersect, solve_linear_diophantine_eq, to_abs_slice,
};

#[test]
fn a_slice_moves_the_first_coordinate() {
    let rows = [
        (Slice::new(2, Some(7), 1), (5, 4, 8)),
        (Slice::new(2, Some(7), 2), (3, 8, 8)),
        (Slice::new(2, Some(7), -2), (3, back(8), 24)),
        (Slice::new(-3, None, 1), (3, 4, 24)),
        (Slice::new(0, None, -4), (3, back(16), 32)),
        (Slice::new(4, Some(5), 3), (1, 0, 16)),
        (Slice::new(6, Some(2), 1), (0, 0, 0)),
        (Slice::new(9, None, 1), (0, 0, 0)),
        (Slice::from(..0_isize), (0, 0, 0)),
    ];
    for (slice, expected) in rows {
        let (mut dim, mut stride) = (9, 4);
        let offset = do_slice(&mut dim, &mut stride, slice);
        assert_eq!((dim, stride, offset), expected, "{slice:?}");
    }
}

#[test]
fn bounds_are_counted_from_the_first_coordinate() {
    assert_eq!(to_abs_slice(9, Slice::new(-7, Some(-2), 3)), (2, 7, 3));
    assert_eq!(to_abs_slice(9, Slice::new(5, Some(2), -1)), (5, 5, -1));
    assert_eq!(to_abs_slice(0, Slice::new(0, None, 1)), (0, 0, 1));
    assert_eq!((abs_index(9, -9), abs_index(9, 8)), (0, 8));
    assert_eq!(slice_min_max(9, Slice::new(-7, Some(-2), 3)), Some((2, 5)));
    assert_eq!(slice_min_max(9, Slice::new(-7, Some(-2), -3)), Some((3, 6)));
    assert_eq!(slice_min_max(9, Slice::new(8, None, 5)), Some((8, 8)));
    assert_eq!(slice_min_max(9, Slice::new(5, Some(2), -1)), None);
}

#[test]
fn slices_share_an_index_or_not() {
    let shape = Ix2(6, 8);
    assert!(slices_intersect(&shape, s![1..4, ..], s![3.., -1]));
    assert!(slices_intersect(&shape, s![..;-5, ..;2], s![5, NewAxis, 4..]));
    assert!(!slices_intersect(&shape, s![..;-5, ..], s![1..5, ..]));
    assert!(!slices_intersect(&shape, s![.., ..;2], s![.., 1..;4]));
    assert!(!slices_intersect(&shape, s![2, ..], s![-5, ..]));
    assert!(!slices_intersect(&shape, s![3..3, ..], s![.., ..]));
    assert!(slices_intersect(&Ix1(100), s![3..;7], s![1..;11]));
    assert!(!slices_intersect(&Ix1(40), s![3..;7], s![1..;11]));
}

#[test]
fn a_slice_argument_is_lent_or_bare() {
    let (first, second) = (s![..;2, 1], s![1..;2, ..]);
    assert!(!slices_intersect(&Ix2(4, 5), &first, &second));
    assert!(!slices_intersect(&Ix2(4, 5), first, second));
    let elems = [SliceInfoElem::from(1..3), SliceInfoElem::from(2)];
    let others = vec![SliceInfoElem::from(2..), SliceInfoElem::from(..)];
    assert!(slices_intersect(&IxDyn(&[4, 5]), &elems[..], &others[..]));
    let info: SliceInfo<_, IxDyn, IxDyn> = others.try_into().expect("any count of axes");
    assert!(slices_intersect(&Dim(vec![4, 5]), info, &elems[..]));
    assert!(slices_intersect(&Ix3(2, 2, 2), s![.., 1, ..], s![1, .., 1]));
}

#[test]
fn an_equation_is_solved_by_its_own_number() {
    assert_eq!(extended_gcd(84, 36), (12, (1, -2)));
    assert_eq!(extended_gcd(-7, 0), (7, (-1, 0)));
    assert_eq!(solve_linear_diophantine_eq(15, 35, 11), None);
    for (a, b, c) in [(15, 35, 10), (-15, 35, 10), (15, -35, -10), (6, 4, 0), (isize::MAX, 1, 5)] {
        let (x, distance) = solve_linear_diophantine_eq(a, b, c).expect("a solution");
        assert!(distance > 0 && (c as i128 - a as i128 * x as i128) % b as i128 == 0, "{a} {b} {c}");
    }
    assert!(arith_seq_intersect((2, 20, 6), (5, 20, -3)) && !arith_seq_intersect((2, 20, 6), (4, 22, 6)));
}
