//! A picture that is lent to two threads: each blurs its half into pixels of its own, with no `unsafe` and no place at hand.

use ndarray_layout::{ArrayView, Ix2, LayoutError, ShapeBuilder, s};
use std::thread;

/// Writes the mean of each pixel and its eight neighbours, row by row; the border has none.
fn blur(picture: &ArrayView<'_, u16, Ix2>, soft: &mut [u16]) {
    let rows: Vec<&[u16]> = picture.rows().filter_map(|row| row.as_slice()).collect();
    for (three, soft) in rows.windows(3).zip(soft.chunks_mut(picture.ncols() - 2)) {
        for (column, soft) in soft.iter_mut().enumerate() {
            let nine = three.iter().flat_map(|row| &row[column..column + 3]);
            *soft = (nine.map(|pixel| u32::from(*pixel)).sum::<u32>() / 9) as u16;
        }
    }
}

fn main() -> Result<(), LayoutError> {
    // 4 rows of 6 pixels, each of which takes the room of 8
    let pixels: Vec<u16> = (0..32).collect();
    let picture = ArrayView::from_shape((4, 6).strides((8, 1))?, &pixels)?;
    let mut soft = vec![0; 8];

    let (first, second) = soft.split_at_mut(4);
    let (above, below) = (picture.slice(s![..3, ..])?, picture.slice(s![1.., ..])?);
    thread::scope(|scope| {
        scope.spawn(|| blur(&above, first));
        scope.spawn(|| blur(&below, second));
    });
    assert_eq!(soft, [9, 10, 11, 12, 17, 18, 19, 20]);
    println!("soft: {soft:?}");
    Ok(())
}
