//! What arrays and their parts print, after ndarray's texts.

use super::counted;
use ndarray_layout::CanIndexCheckMode::ReadOnly;
use ndarray_layout::{
    ArrayView, ArrayViewMut, Axis, Ix0, Ix1, Ix2, IxDyn, LayoutError, Lengths, Order, OwnedArray, SplitViews,
    StrideShape, Strided, Strides, s, unsigned,
};

/// The array of a shape over 0, 1, 2 and so on, printed.
fn printed<D: ndarray_layout::Dimension>(shape: D) -> Result<String, LayoutError> {
    Ok(format!("{:?}", counted(shape)?))
}

#[test]
fn items_are_nested_lists() -> Result<(), LayoutError> {
    assert_eq!(printed(Ix0())?, "0, shape=[], strides=[], layout=CFcf (0xf), const ndim=0");
    assert_eq!(printed(Ix1(3))?, "[0, 1, 2], shape=[3], strides=[1], layout=CFcf (0xf), const ndim=1");
    assert_eq!(printed(Ix2(2, 2))?, "[[0, 1],\n [2, 3]], shape=[2, 2], strides=[2, 1], layout=Cc (0x5), const ndim=2");
    let expected = "[[[0, 1],\n  [2, 3]],\n\n [[4, 5],\n  [6, 7]]], shape=[2, 2, 2], strides=[4, 2, 1], layout=Cc (0x5), \
               dynamic ndim=3";
    assert_eq!(printed(IxDyn(&[2, 2, 2]))?, expected);
    assert_eq!(printed(Ix2(2, 0))?, "[[]], shape=[2, 0], strides=[0, 0], layout=CFcf (0xf), const ndim=2");
    Ok(())
}

#[test]
fn views_print_strides_with_their_signs() -> Result<(), LayoutError> {
    let texts = ["a", "b", "c", "d"].map(String::from);
    let view = Strided::new(Ix2(2, 2), Ix2(1, unsigned(-2)), 24, 4, ReadOnly)?;
    let array = ArrayView::over(view, &texts)?;
    let expected = "[[\"c\", \"a\"],\n [\"d\", \"b\"]], shape=[2, 2], strides=[1, -2], layout=f (0x8), const ndim=2";
    assert_eq!(format!("{array:?}"), expected);
    let mut numbers = [1, 2, 3, 4];
    let columns = StrideShape { dim: Ix2(2, 2), strides: Strides::F };
    let array = ArrayViewMut::from_shape(columns, &mut numbers)?;
    assert_eq!(format!("{array:?}"), "[[1, 3],\n [2, 4]], shape=[2, 2], strides=[1, 2], layout=Ff (0xa), const ndim=2");
    let rows: Vec<String> = array.try_view()?.rows().map(|row| format!("{row:?}")).collect();
    assert_eq!(rows, ["[1, 3]", "[2, 4]"]);
    Ok(())
}

#[test]
fn items_are_formatted_as_asked() -> Result<(), LayoutError> {
    let numbers = OwnedArray::from_shape_vec(Ix1(2), vec![1.0, 0.5])?;
    assert!(format!("{numbers:5.2?}").starts_with("[ 1.00,  0.50], shape"));
    assert_eq!(
        (numbers.to_string(), format!("{numbers:.1} {numbers:e}")),
        ("[1, 0.5]".into(), "[1.0, 0.5] [1e0, 5e-1]".into())
    );
    let words = ["a", "b", "c", "d"];
    assert_eq!(ArrayView::from_shape((2, 2), &words)?.t().to_string(), "[[a, c],\n [b, d]]");
    assert_eq!((counted(Ix0())?.to_string(), counted(Ix2(2, 0))?.to_string()), ("0".into(), "[[]]".into()));
    let mut bytes = [10, 200];
    let bytes = ArrayViewMut::from(&mut bytes);
    assert_eq!(format!("{bytes:#x} {bytes:b} {bytes:02x}"), "[0xa, 0xc8] [1010, 11001000] [0a, c8]");
    Ok(())
}

#[test]
fn of_many_items_the_first_and_the_last_are_printed() -> Result<(), LayoutError> {
    let line = counted(Ix1(600))?;
    assert_eq!(line.to_string(), "[0, 1, 2, 3, 4, ..., 595, 596, 597, 598, 599]");
    assert!(format!("{line:#}").contains(", 299, 300, "));
    assert!(format!("{line:?}").starts_with("[0, 1, 2, 3, 4, ..., 595, 596, 597, 598, 599], shape"));
    assert!(format!("{line:#?}").contains(", 299, 300, "));
    assert!(printed(Ix1(500))?.contains(", 299, 300, "));
    let lines: Vec<String> = printed(Ix2(60, 10))?.lines().map(String::from).collect();
    assert_eq!((lines.len(), lines[5].as_str()), (11, " ...,"));
    assert!(printed(Ix2(60, 11))?.starts_with("[[0, 1, 2, 3, 4, 5, 6, 7, 8, 9, 10],\n"));
    assert!(lines[6].starts_with(" [550, 551, ") && lines[4].ends_with(" 48, 49],"));
    let blocks = printed(IxDyn(&[7, 10, 10]))?;
    assert!(blocks.contains("  [290, 291, 292, 293, 294, 295, 296, 297, 298, 299]],\n\n ...,\n\n [[400, "));
    Ok(())
}

#[test]
fn many_axes_print_without_recursion() -> Result<(), LayoutError> {
    let array = counted(IxDyn(&vec![1; 100_000]))?;
    assert!(format!("{array:?}").starts_with(&"[".repeat(100_000)));
    assert_eq!(array.dim().ndim(), 100_000);
    Ok(())
}

#[test]
fn parts_print_their_items_and_shape() -> Result<(), LayoutError> {
    let mut table = counted(Ix2(2, 3))?;
    let (column, item) = table.multi_slice_mut((s![..;-1, 1], s![0, 0]))?;
    assert_eq!(
        format!("{column:?} {item:?}"),
        "[4, 1], shape=[2], strides=[-3], layout=Custom (0x0), const ndim=1 0, shape=[], strides=[], layout=CFcf (0xf), const ndim=0"
    );
    Ok(())
}

#[test]
fn rows_and_splits_print() -> Result<(), LayoutError> {
    let items = [1, 2, 3, 4];
    let array = ArrayView::from_shape(Ix2(2, 2), &items)?;
    assert_eq!(
        (format!("{:?}", array.strided().rows(Order::C)), array.rows().len()),
        ("Rows { left: 2, .. }".to_owned(), 2)
    );
    let view = *array.strided();
    let row = "dim: [1, 2], strides: [2, 1] }";
    let expected = format!(
        "SplitViews {{ first: Strided {{ start: 0, {row}, second: Strided {{ start: 0, {row}, cut: 2, first_is_lower: true }}"
    );
    assert_eq!(format!("{:?}", SplitViews::new(view, 4, Axis(0), 1)?), expected);
    Ok(())
}
