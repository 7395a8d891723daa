//! Tasks over whole pictures, beside the same over lists of pixels.

use crate::example_callers::{brightest, darkest, is_brighter, is_darker, mirror, show_the_same, sum_of_crop};
use crate::{SIX_AXES, SIX_BACK, pixels, strides};
use ndarray_layout::CanIndexCheckMode::ReadOnly;
use ndarray_layout::{ArrayView, Ix2, IxDyn, Strided};

/// Pixels, the shape and the strides of a picture of them, and the pixels in row-major order.
type Picture = (Vec<u8>, Vec<usize>, Vec<isize>, Vec<u8>);

fn pictures() -> Vec<Picture> {
    let mut backwards = pixels(10_000);
    backwards.reverse();
    vec![
        (vec![7, 9, 3, 9, 200, 1], vec![2, 2], vec![3, 1], vec![7, 9, 9, 200]),
        (vec![7, 9, 3, 9, 200, 1], vec![3, 2], vec![1, -1], vec![9, 7, 3, 9, 9, 3]),
        (vec![7, 9, 3], vec![2, 3], vec![0, 1], vec![7, 9, 3, 7, 9, 3]),
        (vec![7], vec![2, 0], vec![0, 0], vec![]),
        (vec![7, 9], vec![], vec![], vec![7]),
        (pixels(10_000), SIX_AXES.to_vec(), SIX_BACK.to_vec(), backwards),
    ]
}

fn picture_of<'a>(items: &'a [u8], shape: &[usize], by: &[isize]) -> ArrayView<'a, u8, IxDyn> {
    let view = Strided::new(IxDyn(shape), strides(by), 1, items.len(), ReadOnly).unwrap();
    ArrayView::over(view, items).unwrap()
}

#[test]
fn the_extremes_of_a_picture_are_those_of_its_pixels() {
    for (items, shape, by, expected) in pictures() {
        let picture = picture_of(&items, &shape, &by);
        assert_eq!(brightest(&picture), expected.iter().copied().max(), "{shape:?}");
        assert_eq!(darkest(&picture), expected.iter().copied().min(), "{shape:?}");
    }
}

#[test]
fn bounds_are_compared_with_each_pixel_of_the_picture_and_no_other() {
    for (items, shape, by, expected) in pictures() {
        let picture = picture_of(&items, &shape, &by);
        for bound in 0..=255 {
            assert_eq!(is_darker(&picture, bound), expected.iter().all(|pixel| *pixel < bound), "{shape:?}, {bound}");
            assert_eq!(is_brighter(&picture, bound), expected.iter().any(|pixel| *pixel > bound), "{shape:?}, {bound}");
        }
    }
}

#[test]
fn a_sum_is_that_of_the_pixels_in_the_crop() {
    let items = pixels(10_000);
    let view = Strided::new(Ix2(100, 100), Ix2(100, 1), 1, 10_000, ReadOnly).unwrap();
    let picture = ArrayView::over(view, &items).unwrap();
    let expected = |rows: std::ops::Range<usize>, columns: std::ops::Range<usize>| {
        rows.flat_map(|row| columns.clone().map(move |column| row * 100 + column))
            .map(|place| u64::from(items[place]))
            .sum()
    };
    assert_eq!(sum_of_crop(&picture, &Ix2(3, 5), &Ix2(90, 71)), Some(expected(3..90, 5..71)));
    assert_eq!(sum_of_crop(&picture, &Ix2(3, 5), &Ix2(3, 71)), Some(0));
    assert_eq!(sum_of_crop(&picture, &Ix2(3, 5), &Ix2(101, 71)), None);
}

#[test]
fn a_mirror_has_each_row_backwards() {
    let items = [1, 2, 3, 4, 5, 6];
    let picture = ArrayView::from_shape(Ix2(2, 3), &items).unwrap();
    assert_eq!(mirror(picture).unwrap(), [3, 2, 1, 6, 5, 4]);
    assert!(mirror(picture_of(&items, &[6], &[1])).is_err());
}

#[test]
fn pictures_show_the_same_by_shape_and_pixels() {
    let (items, others) = ([1, 2, 3, 2, 1], [3, 2, 1]);
    let [one, other] = [picture_of(&items, &[3], &[1]), picture_of(&others, &[3], &[-1])];
    assert!(show_the_same(&one, &other));
    assert!(!show_the_same(&one, &picture_of(&items, &[1, 3], &[3, 1])));
    assert!(!show_the_same(&one, &picture_of(&others, &[3], &[1])));
}
