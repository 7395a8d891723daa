//! Slices of arrays whose types say how many axes are left, and arrays of any number of axes.

use super::counted;
use ndarray_layout::ErrorKind::{IncompatibleShape, OutOfBounds, Unsupported};
use ndarray_layout::{
    ArrayView, ArrayViewMut, Dim, ErrorKind, Ix1, Ix2, Ix3, Ix6, IxDyn, LayoutError, Lengths, NewAxis, OwnedArray,
    Strided, all_indices, s,
};

fn kind<T>(made: Result<T, LayoutError>) -> Option<ErrorKind> {
    match made.err()? {
        LayoutError::Shape(error) => Some(error.kind()),
        LayoutError::Memory(error) => panic!("{error}"),
    }
}

#[test]
fn a_slice_of_an_array_has_the_axes_that_its_type_says() -> Result<(), LayoutError> {
    let mut cube = counted(Ix3(2, 3, 4))?;
    let plane: ArrayView<'_, i32, Ix2> = cube.sliced(s![1, .., ..;2])?;
    assert_eq!((plane.dim(), plane[(2, 1)]), (&Ix2(3, 2), 22));
    let line: ArrayView<'_, i32, Ix1> = plane.slice(s![-1, ..;-1])?;
    assert_eq!(line.iter().copied().collect::<Vec<_>>(), [22, 20]);
    let mut plane: ArrayViewMut<'_, i32, Ix2> = cube.slice_mut(s![0, .., 1..3])?;
    plane.slice_mut(s![0, ..])?.fill(99);
    let again: ArrayView<'_, i32, Ix3> = plane.slice(s![.., NewAxis, ..])?;
    assert_eq!(again[(0, 0, 1)], 99);
    plane.slice_move(s![2, ..])?.fill(77);
    assert_eq!(cube.stored()[..12], [0, 99, 99, 3, 4, 5, 6, 7, 8, 77, 77, 11]);
    Ok(())
}

#[test]
fn a_slice_of_lists_is_lent() -> Result<(), LayoutError> {
    let mut lists = OwnedArray::from_shape_vec(Ix2(2, 2), vec![vec![1], vec![2], vec![3], vec![4]])?;
    let mut column: ArrayViewMut<'_, Vec<i32>, Ix1> = lists.slice_mut(s![.., 1])?;
    assert!(column.set(&1, vec![5, 6]));
    assert_eq!(lists.sliced(s![1.., ..])?[(0, 1)], [5, 6]);
    Ok(())
}

#[test]
fn what_does_not_fit_has_an_error() -> Result<(), LayoutError> {
    let mut table = counted(Ix2(2, 3))?;
    assert_eq!(kind(table.sliced(s![2, ..])), Some(OutOfBounds));
    assert_eq!(kind(table.slice_mut(s![.., ..;0])), Some(Unsupported));
    let mut any = counted(IxDyn(&[2, 3]))?;
    assert_eq!(kind(any.sliced(s![1])), Some(IncompatibleShape));
    assert_eq!(kind(any.slice_mut(s![1, .., ..])), Some(IncompatibleShape));
    Ok(())
}

#[test]
fn any_count_of_axes_crops_as_a_fixed_one_does() -> Result<(), LayoutError> {
    let view = Strided::new(Ix2(4, 6), Ix2(6, 1), 1, 24, ndarray_layout::CanIndexCheckMode::ReadOnly)?;
    for (starts, ends) in
        [([1, 2], [3, 5]), ([0, 0], [4, 6]), ([2, 3], [2, 6]), ([4, 6], [4, 6]), ([3, 0], [2, 6]), ([0, 0], [5, 1])]
    {
        let expected = view.crop(&Dim(starts), &Dim(ends)).map(Strided::into_dyn);
        assert_eq!(view.into_dyn().crop(&IxDyn(&starts), &IxDyn(&ends)), expected, "{starts:?} {ends:?}");
    }
    assert_eq!(view.into_dyn().crop(&IxDyn(&[0]), &IxDyn(&[1])), None);
    let array = counted(IxDyn(&[4, 6]))?;
    let part = array.try_view()?.crop(&IxDyn(&[1, 2]), &IxDyn(&[3, 4])).expect("a part");
    assert_eq!(part, OwnedArray::from_shape_vec(IxDyn(&[2, 2]), vec![8, 9, 14, 15])?);
    let mut lists = [vec![1], vec![2], vec![3]];
    let lent = ArrayViewMut::from_shape(IxDyn(&[3]), &mut lists)?;
    assert!(lent.crop(&IxDyn(&[2]), &IxDyn(&[4])).is_none());
    let lent = ArrayViewMut::from_shape(IxDyn(&[3]), &mut lists)?;
    assert!(lent.crop(&IxDyn(&[2]), &IxDyn(&[3])).is_some_and(|mut lent| lent.set(&0, vec![9])));
    assert_eq!(lists[2], [9]);
    Ok(())
}

#[test]
fn views_change_between_types_for_as_many_axes() -> Result<(), LayoutError> {
    let view = *counted(Ix2(2, 3))?.strided();
    let any = view.into_dyn();
    assert_eq!((any.start(), any.dim(), any.strides()), (0, &IxDyn(&[2, 3]), &IxDyn(&[3, 1])));
    assert_eq!(kind(any.clone().into_dimensionality::<Ix1>()), Some(IncompatibleShape));
    assert_eq!(any.into_dimensionality::<Ix2>()?, view);
    let six = counted(IxDyn(&[1, 2, 1, 2, 1, 2]))?.strided().clone();
    let fixed = six.clone().into_dimensionality::<Ix6>()?;
    assert_eq!((fixed.into_dyn(), six.dim().ndim()), (six, 6));
    Ok(())
}

#[test]
fn all_indices_of_any_count_of_axes_are_iterated_over() -> Result<(), LayoutError> {
    let array = counted(IxDyn(&[2, 1, 2, 1, 3]))?;
    let items: Vec<i32> = all_indices(array.dim().clone())?.into_iter().map(|index| array[&index]).collect();
    assert_eq!(items, (0..12).collect::<Vec<_>>());
    assert_eq!(all_indices(IxDyn(&[2, 0]))?.into_iter().len(), 0);
    let mut count = 0;
    for index in all_indices(IxDyn(&[]))? {
        count += 1 + index.ndim();
    }
    assert_eq!(count, 1);
    Ok(())
}
