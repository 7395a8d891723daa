//! Arrays as values: compared by shape and items, hashed, copied and made by default.

use super::{counted, values::hash_of};
use ndarray_layout::{
    ArrayView, ArrayViewMut, Ix0, Ix1, Ix2, Ix3, IxDyn, LayoutError, OwnedArray, StrideShape, Strided, Strides, s,
};

/// Two rows of three numbers, column by column.
fn by_columns(numbers: &[i32]) -> Result<ArrayView<'_, i32, Ix2>, LayoutError> {
    ArrayView::from_shape(StrideShape { dim: Ix2(2, 3), strides: Strides::F }, numbers)
}

/// Words that own memory, as an array.
fn words(words: &[&str]) -> Result<OwnedArray<String, Ix1>, LayoutError> {
    let items: Vec<String> = words.iter().map(|word| (*word).to_owned()).collect();
    Ok(OwnedArray::from_shape_vec(Ix1(items.len()), items)?)
}

#[test]
fn arrays_of_each_kind_are_equal_by_their_items() -> Result<(), LayoutError> {
    let owned = counted(Ix2(2, 3))?;
    let numbers = [0, 3, 1, 4, 2, 5];
    let (view, mut copy) = (by_columns(&numbers)?, numbers);
    let columns = StrideShape { dim: Ix2(2, 3), strides: Strides::F };
    let mut view_mut = ArrayViewMut::from_shape(columns, &mut copy)?;
    let equal =
        [owned == view, view == owned, owned == view_mut, view_mut == owned, view == view_mut, view_mut == view];
    assert_eq!(equal, [true; 6]);
    assert_eq!((view, &owned), (view, &owned.clone()));
    assert_eq!(hash_of(&owned), hash_of(&view));
    assert_eq!(hash_of(&owned), hash_of(&view_mut));
    assert!(view_mut.set(&(1, 2), 6));
    assert_eq!([owned == view_mut, view_mut == view], [false; 2]);
    assert_ne!(hash_of(&owned), hash_of(&view_mut));
    assert_ne!(owned.sliced(s![..;2, ..])?, owned.sliced(s![1.., ..])?);
    Ok(())
}

#[test]
fn rows_with_gaps_and_steps_are_compared() -> Result<(), LayoutError> {
    let table = counted(Ix2(4, 6))?;
    let same = OwnedArray::from_shape_vec(Ix2(2, 3), vec![7, 8, 9, 19, 20, 21])?;
    assert_eq!(table.sliced(s![1..;2, 1..4])?, same);
    assert_ne!(table.sliced(s![..;2, 1..4])?, same);
    let backwards = OwnedArray::from_shape_vec(Ix1(3), vec![11, 9, 7])?;
    assert_eq!(table.sliced(s![1, ..;-2])?, backwards);
    Ok(())
}

#[test]
fn items_of_two_types_are_compared() -> Result<(), LayoutError> {
    let words = words(&["a", "b"])?;
    assert_eq!(words, ArrayView::from_shape(Ix1(2), &["a", "b"])?);
    assert_ne!(words, ArrayView::from_shape(Ix1(2), &["a", "c"])?);
    Ok(())
}

#[test]
fn arrays_of_any_items_are_copied_indexed_and_made_by_default() -> Result<(), LayoutError> {
    let mut letters = words(&["a", "b"])?;
    let copy = letters.clone();
    letters[1].push('c');
    assert_eq!((&letters[0], &letters[1], &copy[1]), (&"a".to_owned(), &"bc".to_owned(), &"b".to_owned()));
    assert_eq!(OwnedArray::<String, Ix2>::default().len(), 0);
    assert_eq!(OwnedArray::<String, IxDyn>::default().len(), 0);
    assert_eq!(OwnedArray::<String, Ix0>::default()[()], "");
    Ok(())
}

#[test]
fn views_of_fixed_types_are_copied_by_use() -> Result<(), LayoutError> {
    let numbers: Vec<i32> = (0..24).collect();
    let layout = Strided::from_shape(Ix3(2, 3, 4).into(), 4, 24, ndarray_layout::CanIndexCheckMode::ReadOnly)?;
    let (array, turned) = (ArrayView::over(layout, &numbers)?, layout.reversed_axes());
    let turned = ArrayView::over(turned, &numbers)?;
    let row = array.rows().nth(1).map(|row| [row, row]);
    assert!(row.is_some_and(|rows| rows[0].as_slice() == rows[1].as_slice()));
    assert_eq!((array[(1, 2, 3)], turned[(3, 2, 1)], array == turned.reversed_axes()), (23, 23, true));
    let any = ArrayView::from_shape(IxDyn(&[1, 2, 1, 3, 1]), &numbers)?;
    assert_eq!(any.clone(), any);
    Ok(())
}
