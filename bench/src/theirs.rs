//! The calls of ndarray's layer in loops of the same form as those of the crate in ffi/, and what stands for those that
//! it hasn't.
use super::tables::{Lists, Parts, RawAxis, RawElem, Reshapes, Runs};
use ndarray_layer::*;

mod arrays;
mod edits;
mod index_iterators;
mod intersections;
mod layouts;
mod place_iterators;
mod reshapes;
mod shapes;
mod views;

pub use arrays::{owned, rows, tiles};
pub use edits::edits;
pub use index_iterators::{indices_three, indices_two};
pub use intersections::intersect;
pub use layouts::{layouts, stride_offset_loop};
pub use place_iterators::{PlacesWay, iter_places};
pub use reshapes::{reshapes, run_steps};
pub use shapes::{co_broadcast_loop, default_strides};
pub use views::{do_slice_loop, places, slice};

fn dimension<D: Dimension>(lens: &[usize]) -> D {
    D::from_dimension(&IxDyn(lens)).unwrap()
}

fn number_of_kind(kind: ErrorKind) -> usize {
    match kind {
        ErrorKind::IncompatibleShape => 1,
        ErrorKind::IncompatibleLayout => 2,
        ErrorKind::RangeLimited => 3,
        ErrorKind::OutOfBounds => 4,
        ErrorKind::Unsupported => 5,
        ErrorKind::Overflow => 6,
        _ => 7,
    }
}

fn elem_of(raw: &RawElem) -> SliceInfoElem {
    let end = if raw.kind == 1 { Some(raw.end) } else { None };
    match raw.kind {
        0 => SliceInfoElem::Index(raw.start),
        _ => SliceInfoElem::Slice { start: raw.start, end, step: raw.step },
    }
}

/// The parts of an array view that its slicing works on. The layer has no view, so this one is written here.
struct View<D> {
    start: usize,
    dim: D,
    strides: D,
}

/// The slice of a view, from the layer's parts: the view is cloned, each axis is sliced or collapsed in place, and the
/// axes that remain are copied.
#[inline(always)]
fn slice_view<D: Dimension, I: SliceArg<D> + ?Sized>(view: &View<D>, info: &I) -> View<I::OutDim> {
    assert_eq!(info.in_ndim(), view.dim.ndim());
    let (mut dim, mut strides) = (view.dim.clone(), view.strides.clone());
    let ndim = info.out_ndim();
    let (mut new_dim, mut new_strides) = (I::OutDim::zeros(ndim), I::OutDim::zeros(ndim));
    let (mut old, mut new, mut offset) = (0, 0, 0);
    for elem in info.as_ref() {
        match *elem {
            SliceInfoElem::Slice { start, end, step } => {
                offset += do_slice(&mut dim[old], &mut strides[old], Slice { start, end, step });
                new_dim[new] = dim[old];
                new_strides[new] = strides[old];
                old += 1;
                new += 1;
            }
            SliceInfoElem::Index(i) => {
                let i = abs_index(dim[old], i);
                offset += do_collapse_axis(&mut dim, &strides, old, i);
                old += 1;
            }
            SliceInfoElem::NewAxis => {
                new_dim[new] = 1;
                new_strides[new] = 0;
                new += 1;
            }
        }
    }
    View { start: (view.start as isize + offset) as usize, dim: new_dim, strides: new_strides }
}

fn number_of_view<D: Dimension>(view: &View<D>) -> usize {
    let len = view.dim.slice().first().copied().unwrap_or(0);
    let stride = view.strides.slice().last().copied().unwrap_or(0);
    view.start.wrapping_add(len).wrapping_add(stride)
}
