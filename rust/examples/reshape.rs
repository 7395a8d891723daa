//! Whether an array can take another shape as it lies, or has to be copied.

use ndarray_layout::{CanIndexCheckMode, Dim, Dimension, ErrorKind, Ix1, Ix2, LayoutError, Order, Strided, s};

/// What it takes to read a view as a list.
fn told(view: &Strided<Ix2>) -> String {
    let len = view.dim().size();
    match view.reshape(&Ix1(len), Order::RowMajor) {
        Ok(list) => format!("a list of {len} from {} on, stride {}", list.start(), list.strides()[0] as isize),
        Err(LayoutError::Shape(error)) if error.kind() == ErrorKind::IncompatibleLayout => {
            "a copy is needed".to_string()
        }
        Err(error) => error.to_string(),
    }
}

fn main() -> Result<(), LayoutError> {
    let array = Strided::new(Ix2(4, 6), Ix2(6, 1), 8, 24, CanIndexCheckMode::OwnedMutable)?;
    let cases = [
        ("the array", array.sliced(s![.., ..])?, "a list of 24 from 0 on, stride 1"),
        ("every second row", array.sliced(s![..;2, ..])?, "a copy is needed"),
        ("every second column", array.sliced(s![.., ..;2])?, "a list of 12 from 0 on, stride 2"),
        ("both reversed", array.sliced(s![..;-1, ..;-1])?, "a list of 24 from 23 on, stride -1"),
        ("the transpose", array.duplicate()?.reversed_axes(), "a copy is needed"),
    ];
    for (name, view, expected) in &cases {
        println!("{name}: {}", told(view));
        assert_eq!(told(view), *expected);
    }

    // two axes become four, and no element moves
    let tiles = array.reshape(&Dim([2, 2, 2, 3]), Order::RowMajor)?;
    assert_eq!(tiles.strides(), &Dim([12, 6, 3, 1]));
    Ok(())
}
