//! Chunks of an array along an axis, to be read and to be written.

use crate::{NUMBERS, kind, owned, rows, rows_mut, texts};
use ndarray_layout::Axis;
use ndarray_layout::ErrorKind::{OutOfBounds, Unsupported};

#[test]
fn chunks_of_an_axis_are_read() {
    let texts = texts();
    let array = rows(&texts);
    let chunks: Vec<String> =
        array.axis_chunks_iter(Axis(1), 2).unwrap().map(|chunk| chunk.to_vec().unwrap().concat()).collect();
    assert_eq!(chunks, ["0134", "25"]);
    assert_eq!(kind(array.axis_chunks_iter(Axis(2), 2)), Some(OutOfBounds));
    assert_eq!(kind(array.axis_chunks_iter(Axis(1), 0)), Some(Unsupported));
    let left = owned(NUMBERS.to_vec());
    assert_eq!(format!("{:?}", left.axis_chunks_iter(Axis(0), 2).unwrap()), "Arrays { left: 1, .. }");
    assert_eq!(left.axis_chunks_iter(Axis(0), usize::MAX).unwrap().next().map(|chunk| chunk.len()), Some(6));
}

#[test]
fn chunks_of_an_axis_are_written() {
    let mut texts = texts();
    let mut array = rows_mut(&mut texts);
    assert_eq!(kind(array.axis_chunks_iter_mut(Axis(1), 0)), Some(Unsupported));
    assert_eq!(kind(array.axis_chunks_iter_mut(Axis(2), 0)), Some(OutOfBounds));
    for (mut chunk, letter) in array.axis_chunks_iter_mut(Axis(1), 2).unwrap().zip(["x", "a"]) {
        chunk[(1, 0)].push_str(letter);
    }
    array.invert_axis(Axis(0)).unwrap();
    for (mut chunk, letter) in array.axis_chunks_iter_mut(Axis(0), 1).unwrap().zip(["b", "c"]) {
        chunk.iter_mut().for_each(|text| text.push_str(letter));
    }
    assert_eq!(format!("{:?}", array.axis_chunks_iter_mut(Axis(0), 1).unwrap()), "Parts { left: 2, .. }");
    assert_eq!(texts, ["0c", "1c", "2c", "3xb", "4b", "5ab", "6"]);
}
