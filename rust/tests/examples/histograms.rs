//! What is counted and added of a picture, and one that is pasted into another.

use crate::example_callers::{histogram, paste, transpose_sum};
use crate::{Layout, SIX_AXES, SIX_BACK, pixels, strides};
use ndarray_layout::CanIndexCheckMode::{OwnedMutable, ReadOnly};
use ndarray_layout::{ArrayView, Ix2, IxDyn, Strided};

#[test]
fn each_value_is_counted() {
    for (layout, expected) in [
        ((&[2, 2][..], &[3, 1][..], 6), vec![0, 1, 3, 4]),
        ((&[2, 3], &[0, 1], 3), vec![0, 1, 2, 0, 1, 2]),
        ((&[2, 0], &[1, 1], 1), vec![]),
        ((SIX_AXES, SIX_BACK, 10_000), pixels(10_000)),
    ] {
        let items = pixels(layout.2);
        let counts = histogram(&view_over(layout, &items));
        for value in 0..=255 {
            let count = expected.iter().filter(|pixel| **pixel == value).count();
            assert_eq!(counts[usize::from(value)], count, "{value} of {:?}", layout.0);
        }
    }
}

fn view_over<'a>((shape, by, len): Layout, items: &'a [u8]) -> ArrayView<'a, u8, IxDyn> {
    ArrayView::over(Strided::new(IxDyn(shape), strides(by), 1, len, ReadOnly).unwrap(), items).unwrap()
}

#[test]
fn a_transpose_has_the_sum_of_the_picture() {
    let items = pixels(10_000);
    for (layout, expected) in [
        ((&[2, 3][..], &[3, 1][..], 6), 15),
        ((&[2, 3], &[0, 1], 3), 6),
        ((&[2, 3, 2], &[3, 1, 6], 12), 66),
        ((&[], &[], 1), 0),
        ((&[2, 0], &[1, 1], 1), 0),
        ((SIX_AXES, SIX_BACK, 10_000), items.iter().map(|pixel| u64::from(*pixel)).sum()),
    ] {
        assert_eq!(transpose_sum(view_over(layout, &items)), Some(expected), "{:?}", layout.0);
    }
}

#[test]
fn a_picture_is_pasted_into_its_part_of_another_one() {
    let small = [91, 92, 93, 94];
    let square = ArrayView::from_shape(Ix2(2, 2), &small).unwrap();
    let view = || Strided::new(Ix2(3, 4), Ix2(4, 1), 1, 13, OwnedMutable).unwrap();
    let mut whole = pixels(13);
    assert!(paste(view(), &mut whole, &Ix2(1, 2), &Ix2(3, 4), &square));
    assert_eq!(whole, [0, 1, 2, 3, 4, 5, 91, 92, 8, 9, 93, 94, 12]);
    let before = whole.clone();
    for (starts, ends) in [((1, 2), (3, 3)), ((2, 2), (4, 4)), ((2, 2), (1, 4)), ((0, 3), (2, 5))] {
        assert!(!paste(view(), &mut whole, &Ix2(starts.0, starts.1), &Ix2(ends.0, ends.1), &square));
        assert_eq!(whole, before);
    }
}
