//! The layer's types from lists, and lists from them.

use crate::model::View;
use ndarray_layout::CanIndexCheckMode::ReadOnly;
use ndarray_layout::{LayoutError, Lengths, ShapeError, Strided, signed, unsigned};

/// What a call gives for `IxDyn` and, up to six axes, for the type of just as many.
macro_rules! of_types {
    ($axes:expr, $dimension:ident => $call:expr) => {{
        macro_rules! of_type {
            ($fixed:ty) => {{
                type $dimension = $fixed;
                $call
            }};
        }
        let mut results = vec![of_type!(ndarray_layout::IxDyn)];
        results.extend(match $axes {
            Some(0) => Some(of_type!(ndarray_layout::Ix0)),
            Some(1) => Some(of_type!(ndarray_layout::Ix1)),
            Some(2) => Some(of_type!(ndarray_layout::Ix2)),
            Some(3) => Some(of_type!(ndarray_layout::Ix3)),
            Some(4) => Some(of_type!(ndarray_layout::Ix4)),
            Some(5) => Some(of_type!(ndarray_layout::Ix5)),
            Some(6) => Some(of_type!(ndarray_layout::Ix6)),
            _ => None,
        });
        results
    }};
}
pub(crate) use of_types;

/// How many axes two lists are for, if for as many.
pub fn axes_of<T, U>(first: &[T], second: &[U]) -> Option<usize> {
    (first.len() == second.len()).then_some(first.len())
}

pub fn dimension<D: Lengths>(lens: &[usize]) -> D {
    let mut dim = D::zeros(lens.len()).expect("memory for a few lengths");
    dim.slice_mut().copy_from_slice(lens);
    dim
}

/// Strides as the layer keeps them.
pub fn kept(strides: &[isize]) -> Vec<usize> {
    strides.iter().map(|stride| unsigned(*stride)).collect()
}

pub fn strides_of<D: Lengths>(strides: &[isize]) -> D {
    dimension(&kept(strides))
}

pub fn signed_list<D: Lengths>(strides: &D) -> Vec<isize> {
    strides.slice().iter().map(|stride| signed(*stride)).collect()
}

/// A layout at the lowest start that it can have.
pub fn lowest<D: Lengths>(shape: &[usize], strides: &[isize]) -> Result<Strided<D>, ShapeError> {
    Strided::new(dimension(shape), strides_of(strides), 1, usize::MAX, ReadOnly)
}

/// A layout at its start.
pub fn strided<D: Lengths>(view: &View) -> Result<Strided<D>, LayoutError> {
    let (dim, strides) = (dimension(&view.shape), strides_of(&view.strides));
    Ok(Strided::from_parts(view.start, dim, strides, 1, usize::MAX, ReadOnly)?)
}

pub fn lists_of<D: Lengths>(view: &Strided<D>) -> View {
    View { start: view.start(), shape: view.dim().slice().to_vec(), strides: signed_list(view.strides()) }
}
