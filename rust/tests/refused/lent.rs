//! Calls of numbers that are lent as an array: the lists are its shape and its strides, and another shape, or the
//! number of an axis and of a coordinate.

use crate::call::Call;
use Fit::Strict;
use Order::RowMajor;
use ndarray_layout::{ArrayView, ArrayViewMut, Fit, IxDyn, Order, StrideShape, Strides};

/// What a call answers.
pub fn answer(call: &Call) -> Option<String> {
    let shape = StrideShape { dim: call.dim(2), strides: Strides::F };
    let mut numbers = [0; 99];
    match call.name {
        "ArrayView::from_shape" => Some(call.told(|| ArrayView::from_shape(shape, &numbers))),
        "ArrayViewMut::from_shape" => Some(call.told(|| ArrayViewMut::from_shape(shape, &mut numbers))),
        _ if call.name.starts_with("ArrayView::") || call.name.starts_with("BlocksIter") => {
            read(call, ArrayView::over(call.view(), &numbers).ok()?)
        }
        _ if call.name.starts_with("Indexed") => {
            indexed(call, ArrayViewMut::from_shape(call.laid(), &mut numbers).ok()?)
        }
        _ if call.name.starts_with("Axis") => along(call, ArrayViewMut::from_shape(call.laid(), &mut numbers).ok()?),
        _ => written(call, ArrayViewMut::from_shape(call.laid(), &mut numbers).ok()?),
    }
}

fn read(call: &Call, array: ArrayView<'_, usize, IxDyn>) -> Option<String> {
    let (reversed, back, to) = (call.reversed(), call.back(), call.dim(2));
    let (axis, index) = call.axis_and_index();
    Some(match call.name {
        "ArrayView::slice_with" => call.told(|| array.slice_with::<IxDyn, _>(&reversed, Strict)),
        "ArrayView::permuted_axes" => call.told(|| array.permuted_axes(&back)),
        "ArrayView::reshape" => call.told(|| array.reshape(&to, RowMajor)),
        "ArrayView::broadcast" => call.told(|| array.broadcast(&to)),
        "ArrayView::windows" => call.told(|| array.windows::<IxDyn>(&to)),
        "ArrayView::exact_chunks" => call.told(|| array.exact_chunks::<IxDyn>(&to)),
        "ArrayView::into_dimensionality" => call.told(|| array.into_dimensionality::<IxDyn>()),
        "ArrayView::index_axis" => call.told(|| array.index_axis(axis, index)),
        "ArrayView::insert_axis" => call.told(|| array.insert_axis(axis)),
        "ArrayView::split_at" => call.told(|| array.split_at(axis, index)),
        "ArrayView::into_windows" => call.told(|| array.into_windows(&to).map(|left| left.len())),
        "ArrayView::into_exact_chunks" => call.told(|| array.into_exact_chunks(&to).map(|left| left.len())),
        "BlocksIter::try_next" => {
            let mut left = array.into_windows(&to).ok()?;
            call.told(|| left.try_next())
        }
        "BlocksIter::try_next_back" => {
            let mut left = array.into_windows(&to).ok()?;
            call.told(|| left.try_next_back())
        }
        "ArrayView::duplicate" => call.told(|| array.duplicate()),
        "ArrayView::into_indexed_iter" => call.told(|| array.into_indexed_iter().map(|left| left.len())),
        _ => return None,
    })
}

/// The same of what comes along an axis: an index says how many are left out, and chunks have one coordinate more.
fn along(call: &Call, part: ArrayViewMut<'_, usize, IxDyn>) -> Option<String> {
    let (axis, index) = call.axis_and_index();
    let numbers = [0; 99];
    let array = ArrayView::over(call.view(), &numbers).ok()?;
    Some(match call.name {
        "AxisIter::try_next" => {
            let mut left = array.into_axis_iter(axis).ok()?;
            left.advance(index);
            call.told(|| left.try_next())
        }
        "AxisIter::try_next_back" => {
            let mut left = array.into_axis_iter(axis).ok()?;
            call.told(|| left.try_next_back())
        }
        "AxisChunksIter::try_next" => {
            let mut left = array.into_axis_chunks(axis, index + 1).ok()?;
            call.told(|| left.try_next())
        }
        "AxisChunksIter::try_next_back" => {
            let mut left = array.into_axis_chunks(axis, index + 1).ok()?;
            call.told(|| left.try_next_back())
        }
        "AxisIterMut::try_next" => {
            let mut left = part.into_axis_parts(axis).ok()?;
            left.advance(index);
            call.told(|| left.try_next())
        }
        "AxisIterMut::try_next_back" => {
            let mut left = part.into_axis_parts(axis).ok()?;
            call.told(|| left.try_next_back())
        }
        "AxisChunksIterMut::try_next" => {
            let mut left = part.into_chunk_parts(axis, index + 1).ok()?;
            call.told(|| left.try_next())
        }
        "AxisChunksIterMut::try_next_back" => {
            let mut left = part.into_chunk_parts(axis, index + 1).ok()?;
            call.told(|| left.try_next_back())
        }
        _ => return None,
    })
}

/// The same of items with their indices: the third list says how many are left out. The index is written.
fn indexed(call: &Call, part: ArrayViewMut<'_, usize, IxDyn>) -> Option<String> {
    let out = call.list(2)[0];
    let numbers = [0; 99];
    let mut read = ArrayView::over(call.view(), &numbers).ok()?.into_indexed_iter().ok()?;
    let mut written = part.into_indexed_items().ok()?;
    assert_eq!((read.by_ref().take(out).count(), written.by_ref().take(out).count()), (out, out));
    Some(match call.name {
        "IndexedIter::try_next" => call.told(|| read.try_next().map(|next| next.map(|(index, _)| index))),
        "IndexedIterMut::try_next" => call.told(|| written.try_next().map(|next| next.map(|(index, _)| index))),
        _ => return None,
    })
}

/// The same of numbers that are lent to be written.
fn written(call: &Call, mut part: ArrayViewMut<'_, usize, IxDyn>) -> Option<String> {
    let (reversed, back, to) = (call.reversed(), call.back(), call.dim(2));
    let (axis, index) = call.axis_and_index();
    Some(match call.name {
        "ArrayViewMut::slice_move_with" => call.told(|| part.slice_move_with::<IxDyn, _>(&reversed, Strict)),
        "ArrayViewMut::permuted_axes" => call.told(|| part.permuted_axes(&back)),
        "ArrayViewMut::reshape" => call.told(|| part.reshape(&to, RowMajor)),
        "ArrayViewMut::exact_chunks" => call.told(|| part.exact_chunks::<IxDyn>(&to)),
        "ArrayViewMut::into_dimensionality" => call.told(|| part.into_dimensionality::<IxDyn>()),
        "ArrayViewMut::index_axis" => call.told(|| part.index_axis(axis, index)),
        "ArrayViewMut::insert_axis" => call.told(|| part.insert_axis(axis)),
        "ArrayViewMut::slice_mut_with" => call.told(|| part.slice_mut_with::<IxDyn, _>(&reversed, Strict)),
        "ArrayViewMut::try_view" => call.told(|| part.try_view()),
        "ArrayViewMut::reborrow" => call.told(|| part.reborrow()),
        "ArrayViewMut::into_indexed_items" => call.told(|| part.into_indexed_items().map(|left| left.len())),
        "ArrayViewMut::into_tiles" => call.told(|| part.into_tiles(&to).map(|left| left.len())),
        "TilesMut::try_next" => {
            let mut left = part.into_tiles(&to).ok()?;
            call.told(|| left.try_next())
        }
        "TilesMut::try_next_back" => {
            let mut left = part.into_tiles(&to).ok()?;
            call.told(|| left.try_next_back())
        }
        _ => return None,
    })
}
