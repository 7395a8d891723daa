//! Parts of an array that are lent at once.

use ndarray_layout::{ArrayViewMut, Ix3, IxDyn, LayoutError, s};

/// The part of colour 1 of 0, 1, .. 17 as a picture of 2 rows of 3 pixels, whose colours lie along an axis.
fn green(items: &mut [u8], colour_axis: usize) -> Result<ArrayViewMut<'_, u8, IxDyn>, LayoutError> {
    let mut parts = match colour_axis {
        0 => ArrayViewMut::from_shape(Ix3(3, 2, 3), items)?.multi_slice_move(&[s![1, .., ..]])?,
        _ => ArrayViewMut::from_shape(Ix3(2, 3, 3), items)?.multi_slice_move(&[s![.., .., 1]])?,
    };
    Ok(parts.remove(0))
}

/// The numbers that the docs of `multi_slice_move` name.
#[test]
fn a_plane_of_a_picture_has_its_axes_where_colours_lie_side_by_side() -> Result<(), LayoutError> {
    let mut items: [u8; 18] = std::array::from_fn(|place| place as u8);
    let mut plane = green(&mut items, 2)?;
    assert_eq!(plane.dim(), &IxDyn(&[2, 3]));
    assert!(plane.iter_mut().eq(&mut [1, 4, 7, 10, 13, 16]));
    assert_eq!((plane.get(&[1, 2]), plane.get(&[2, 0])), (Some(&16), None));
    assert!(!plane.set(&[0, 3], 99));
    assert!(plane.set(&[0, 1], 99));
    assert_eq!(items, [0, 1, 2, 3, 99, 5, 6, 7, 8, 9, 10, 11, 12, 13, 14, 15, 16, 17]);
    Ok(())
}

#[test]
fn a_plane_of_a_picture_has_its_rows_where_planes_lie_one_after_another() -> Result<(), LayoutError> {
    let mut items: [u8; 18] = std::array::from_fn(|place| place as u8);
    let mut plane = green(&mut items, 0)?;
    assert_eq!((plane.dim(), plane.get(&[1, 2])), (&IxDyn(&[2, 3]), Some(&11)));
    assert!(plane.set(&[1, 2], 99));
    assert_eq!(plane.into_row_slices()?, [[6, 7, 8], [9, 10, 99]]);
    Ok(())
}
