//! What ndarray's users type, with the values that ndarray 0.17.2 gives.

mod array_slices;
mod compared;
mod differences;
mod dimensions;
mod lent;
#[allow(dead_code)]
#[path = "../parts/model.rs"]
mod model;
#[allow(dead_code)]
#[path = "../random/numbers.rs"]
mod numbers;
mod printed;
mod random;
mod slices;
mod values;

use ndarray_layout::{CanIndexCheckMode, Dimension, LayoutError, OwnedArray, StrideShape, Strided, Strides};

/// A row-major view of a shape over as many elements as it has indices.
fn view_of<D: Dimension>(shape: D) -> Result<Strided<D>, LayoutError> {
    let len = shape.size();
    Strided::from_shape(StrideShape { dim: shape, strides: Strides::C }, 1, len, CanIndexCheckMode::OwnedMutable)
}

/// The array of a shape over 0, 1, 2 and so on.
fn counted<D: Dimension>(shape: D) -> Result<OwnedArray<i32, D>, LayoutError> {
    let items = (0..shape.size() as i32).collect();
    Ok(OwnedArray::from_shape_vec(StrideShape { dim: shape, strides: Strides::C }, items)?)
}

/// The names that most programs need, and nothing else in scope.
mod prelude {
    use ndarray_layout::prelude::*;

    #[test]
    fn the_prelude_is_enough_for_a_view() -> Result<(), LayoutError> {
        let shape = Ix3(2, 3, 4);
        let view = Strided::new(shape, shape.default_strides()?, 8, 24, CanIndexCheckMode::ReadOnly)?;
        let part: Strided<Ix3> = view.sliced(s![1, NewAxis, .., 1..;-1])?;
        assert_eq!((part.start(), part.dim().slice()), (15, &[1, 3, 3][..]));
        assert_eq!(part.iter_places(Order::RowMajor).len(), part.dim().size());
        let array = OwnedArray::from_shape_vec(Dim((2, 2)).f()?, vec![1, 2, 3, 4])?;
        assert_eq!((array[[0, 1]], array[(1, 0)]), (3, 2));
        let columns: ArrayView<'_, i32, Ix2> = array.sliced(s![.., ..1])?;
        assert_eq!(columns.iter().sum::<i32>(), 3);
        Ok(())
    }
}

/// All names at once, beside the package's own.
mod all_names {
    use ndarray_layout::*;

    #[test]
    fn a_glob_brings_types_and_functions() {
        let axis: ndarray_layout::Axis = Axis(1);
        assert_eq!((Ix2(2, 3)[axis.index()], new_ix2(2, 3)), (3, Ix2(2, 3)));
    }
}
