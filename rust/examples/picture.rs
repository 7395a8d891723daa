//! A picture whose rows are padded: cropped, flipped, turned, blurred and cut into tiles. Each step is an array over the same
//! pixels; the blurred picture alone is new.

use ndarray_layout::{ArrayView, Ix2, LayoutError, ShapeBuilder, s};

/// The mean of nine pixels.
fn mean(pixels: [&[u16]; 3]) -> u16 {
    let sum: u32 = pixels.into_iter().flatten().map(|pixel| u32::from(*pixel)).sum();
    (sum / 9) as u16
}

/// The mean of each pixel and its eight neighbours, row by row; the border has none. Nothing where the pixels of a row don't lie
/// side by side.
fn blurred(picture: &ArrayView<'_, u16, Ix2>) -> Option<Vec<u16>> {
    let rows: Vec<&[u16]> = picture.rows().map(|row| row.as_slice()).collect::<Option<_>>()?;
    let mut soft = Vec::new();
    for three in rows.windows(3) {
        let [above, own, below] = [0, 1, 2].map(|row| three[row].windows(3));
        soft.extend(above.zip(own).zip(below).map(|((above, own), below)| mean([above, own, below])));
    }
    Some(soft)
}

fn main() -> Result<(), LayoutError> {
    // 4 rows of 6 pixels, each of which takes the room of 8
    let pixels: Vec<u16> = (0..32).collect();
    let picture = ArrayView::from_shape((4, 6).strides((8, 1))?, &pixels)?;

    let crop = picture.slice(s![1..3, 2..5])?;
    assert_eq!(crop.to_vec()?, [10, 11, 12, 18, 19, 20]);

    let flipped = crop.slice(s![..;-1, ..])?;
    assert_eq!(flipped.to_vec()?, [18, 19, 20, 10, 11, 12]);

    // a quarter turn clockwise: rows flipped, then axes exchanged
    let turned = flipped.reversed_axes();
    assert_eq!(turned.to_vec()?, [18, 10, 19, 11, 20, 12]);

    assert_eq!(blurred(&picture).as_deref(), Some(&[9, 10, 11, 12, 17, 18, 19, 20][..]));
    assert_eq!(blurred(&turned), None);

    for (row, column) in [(0, 0), (0, 3), (2, 0), (2, 3)] {
        println!("the tile at {row},{column}:\n{}", picture.slice(s![row..row + 2, column..column + 3])?);
    }
    Ok(())
}
