//! The orders of views: those of slices of arrays of 5 rows and 5 columns, in either order.

use crate::back;
use ndarray_layout::compat::{
    Array, Array0, Array1, Array2, Array3, Array4, Array5, Array6, ArrayD, ArrayExt, ArrayView, ArrayViewMut, Axis,
    CanIndexCheckMode, Dim, Ix1, Ix2, Ix3, IxDyn, Layout, NdProducer, ShapeBuilder, ShapeSize, StrideShape,
    array_layout, indices, indices_of, s,
};
use ndarray_layout::{LayoutError, Strided};

/// The letters by which a layout prints its bits.
fn letters(layout: Layout) -> String {
    let text = format!("{layout:?}");
    text.split(' ').next().expect("letters").to_string()
}

#[test]
fn slices_of_rows_and_columns_have_orders() {
    let rows = Array2::<f32>::zeros((5, 5));
    let columns = Array2::<f32>::zeros((5, 5).f());
    let of_rows = |info| letters(rows.slice(info).layout());
    let of_columns = |info| letters(columns.slice(info).layout());
    let expected = [
        (s![..1;1, ..;1], "CFcf", "Custom"),
        (s![..;1, ..1;1], "Custom", "CFcf"),
        (s![1..;1, ..;1], "Cc", "f"),
        (s![..;1, 1..;1], "c", "Ff"),
        (s![..;2, ..;1], "c", "Custom"),
        (s![..;1, ..;2], "Custom", "f"),
        (s![..;-1, ..;1], "c", "Custom"),
        (s![..0;1, ..;1], "CFcf", "CFcf"),
    ];
    for (number, (info, row, column)) in expected.into_iter().enumerate() {
        assert_eq!((of_rows(info), of_columns(info)), (row.to_string(), column.to_string()), "{number}");
    }
    assert_eq!((letters(rows.layout()), letters(columns.layout())), ("Cc".to_string(), "Ff".to_string()));
}

#[test]
fn a_layout_of_more_axes_prefers_the_outermost_or_the_innermost() {
    let layout = |dim: [usize; 3], strides: [usize; 3]| letters(array_layout(&Dim(dim), &Dim(strides)));
    assert_eq!(layout([2, 3, 4], [12, 4, 1]), "Cc");
    assert_eq!(layout([2, 3, 4], [1, 2, 6]), "Ff");
    assert_eq!(layout([2, 3, 4], [4, 8, 1]), "c");
    assert_eq!(layout([2, 3, 4], [1, 8, 2]), "f");
    assert_eq!(layout([2, 3, 4], [12, 1, 3]), "Custom");
    assert_eq!(layout([1, 3, 4], [1, 8, 2]), "Custom");
    assert_eq!(layout([1, 6, 1], [9, 1, 9]), "CFcf");
    assert_eq!(letters(array_layout(&Ix1(4), &Ix1(2))), "Custom");
    assert_eq!(letters(array_layout(&Ix1(4), &Ix1(back(1)))), "Custom");
    assert_eq!(letters(array_layout(&IxDyn(&[]), &IxDyn(&[]))), "CFcf");
}

#[test]
fn an_axis_that_is_inserted_leaves_the_order() -> Result<(), LayoutError> {
    let rows = Array2::<f32>::zeros((5, 5));
    for axis in [Axis(0), Axis(1)] {
        assert_eq!(letters(rows.slice(s![0, ..]).insert_axis(axis)?.layout()), "CFcf");
        assert_eq!(letters(rows.slice(s![.., 0]).insert_axis(axis)?.layout()), "Custom");
    }
    Ok(())
}

#[test]
fn arrays_of_each_count_of_axes_are_made() {
    let counts = [
        Array0::<u8>::zeros(()).stored().len(),
        Array1::<u8>::zeros(5.f()).stored().len(),
        Array2::<u8>::zeros((5, 4)).stored().len(),
        Array3::<u8>::zeros([5, 4, 3]).stored().len(),
        Array4::<u8>::zeros((5, 4, 3, 2)).stored().len(),
        Array5::<u8>::zeros((5, 4, 3, 2, 1)).stored().len(),
        Array6::<u8>::zeros((5, 4, 3, 2, 1, 0)).stored().len(),
        ArrayD::<u8>::zeros(vec![5, 4, 3, 2, 1]).stored().len(),
        Array::<u8, Ix1>::zeros(7).stored().len(),
    ];
    assert_eq!(counts, [1, 5, 20, 60, 120, 120, 0, 120, 7]);
}

#[test]
fn the_shape_of_an_array_is_told_and_its_indices() -> Result<(), LayoutError> {
    let mut items = [3, 1, 4, 1, 5, 9];
    let view = ArrayView::from_shape(Ix2(2, 3), &items)?;
    assert_eq!((view.raw_dim(), indices_of(&view).into_iter().last()), (Ix2(2, 3), Some((1, 2))));
    let turned: Strided<Ix2> = view.strided().reversed_axes();
    assert_eq!((turned.raw_dim(), letters(turned.layout())), (Ix2(3, 2), "Ff".to_string()));
    let view = ArrayViewMut::from_shape(IxDyn(&[3, 2]), &mut items)?;
    assert_eq!((view.raw_dim(), letters(view.layout())), (IxDyn(&[3, 2]), "Cc".to_string()));
    let mut array = Array3::<i32>::zeros(Ix3(2, 1, 2));
    assert_eq!(array.raw_dim(), Ix3(2, 1, 2));
    for (i, j, k) in indices_of(&array) {
        array[(i, j, k)] = (10 * i + k) as i32;
    }
    assert!(array.slice(s![.., 0, ..;-1]).iter().eq(&[1, 0, 11, 10]));
    Ok(())
}

/// The sizes of a shape, as what builds an array is handed it.
fn sizes<Sh: ShapeBuilder>(shape: impl Fn() -> Sh) -> (usize, usize) {
    let own: StrideShape<_> =
        shape().into_shape_with_order().strides(shape().into_shape_with_order().raw_dim().clone());
    (shape().f().size(), own.size())
}

#[test]
fn a_shape_of_any_type_has_a_size() {
    assert_eq!((sizes(|| (4, 5)), sizes(|| vec![4, 5, 0]), sizes(|| ())), ((20, 20), (0, 0), (1, 1)));
}

/// The package's dimensions go where those of this module go.
fn places_of<D: ndarray_layout::Dimension>(view: &Strided<D>) -> Vec<(D::Pattern, Option<usize>)> {
    let indices = indices(view.dim().clone()).into_iter();
    indices.map(|pattern| (pattern.clone(), view.place(&Dim(pattern)))).collect()
}

#[test]
fn a_function_over_the_package_calls_both() {
    let shape = (2, 2).f().strides(Ix2(1, 3));
    let view = Strided::from_shape(shape, 1, 5, CanIndexCheckMode::ReadOnly).expect("a layout");
    let expected = [((0, 0), Some(0)), ((0, 1), Some(3)), ((1, 0), Some(1)), ((1, 1), Some(4))];
    assert_eq!(places_of(&view), expected);
}
