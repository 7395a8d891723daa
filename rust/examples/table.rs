//! A table that lies in one list row by row: its columns are strided views, and two of them are written at once.

use ndarray_layout::{ArrayView, Ix1, LayoutError, OwnedArray, s};

fn main() -> Result<(), LayoutError> {
    // day, degrees, millimetres of rain
    let rows = vec![1, 18, 0, 2, 21, 4, 3, 16, 9, 4, 19, 2];
    let mut table = OwnedArray::from_shape_vec((4, 3), rows)?;

    let rain: ArrayView<'_, i32, Ix1> = table.sliced(s![.., 2])?;
    assert_eq!(rain.iter().sum::<i32>(), 15);

    // both columns or none: the slices may share no item
    let (mut degrees, mut days) = table.multi_slice_mut((s![.., 1], s![.., 0]))?;
    degrees.map_in_place(|degrees| *degrees = *degrees * 9 / 5 + 32);
    days.map_in_place(|day| *day += 100);
    println!("{table}");
    assert_eq!(table.stored(), [101, 64, 0, 102, 69, 4, 103, 60, 9, 104, 66, 2]);

    let clash = table.multi_slice_mut((s![.., 1], s![0, ..])).err();
    println!("a column and a row at once: {}", clash.expect("they share an item"));
    Ok(())
}
