//! Calls of a view: the lists are its shape and its strides, and another shape, or the number of an axis and of a
//! coordinate.

use crate::call::Call;
use crate::written::Written;
use CanIndexCheckMode::ReadOnly;
use Fit::Strict;
use Order::RowMajor;
use ndarray_layout::{CanIndexCheckMode, Fit, IxDyn, Lengths, Order, StrideShape, Strided, Strides, reshape_dim};

/// What a call answers, and the view that it was lent.
pub fn of_view(call: &Call) -> Option<String> {
    let (view, taken, to) = (call.view(), call.view(), call.dim(2));
    let (reversed, back) = (call.reversed(), call.back());
    let shape = StrideShape { dim: call.dim(2), strides: Strides::F };
    let told = match call.name {
        "Strided::slice" => call.told(|| view.slice::<IxDyn, _>(&reversed, Strict)),
        "Strided::permuted_axes" => call.told(|| view.permuted_axes(&back)),
        "Strided::reshape" => call.told(|| view.reshape(&to, RowMajor)),
        "Strided::broadcast" => call.told(|| view.broadcast(&to)),
        "Strided::windows" => call.told(|| view.windows::<IxDyn>(&to)),
        "Strided::exact_chunks" => call.told(|| view.exact_chunks::<IxDyn>(&to)),
        "Strided::into_windows" => call.told(|| taken.into_windows(&to).map(|left| left.len())),
        "Strided::into_chunks" => call.told(|| taken.into_chunks(&to).map(|left| left.len())),
        "BlockViews::try_next" => {
            let mut left = taken.into_windows(&to).ok()?;
            call.told(|| left.try_next())
        }
        "BlockViews::try_next_back" => {
            let mut left = taken.into_windows(&to).ok()?;
            call.told(|| left.try_next_back())
        }
        "Strided::places" => call.told(|| view.places(RowMajor)),
        "Strided::duplicate" => call.told(|| view.duplicate()),
        "Strided::into_dimensionality" => call.told(|| taken.into_dimensionality::<IxDyn>()),
        "Strided::from_shape" => call.told(|| Strided::from_shape(shape, 1, 99, ReadOnly)),
        "reshape_dim" => call.told(|| reshape_dim(view.dim(), view.strides(), &to, RowMajor)),
        _ => return None,
    };
    Some(and_view(call, told, &view))
}

/// The same of a call about an axis; `permuted_axes` is given one axis for each, and `split_at` takes the view.
pub fn of_axis(call: &Call) -> Option<String> {
    let view = call.view();
    let (axis, index) = call.axis_and_index();
    if call.name == "Strided::split_at" {
        return Some(call.told(|| view.split_at(axis, index)));
    }
    let axes = vec![axis; view.dim().ndim()];
    let told = match call.name {
        "Strided::index_axis" => call.told(|| view.index_axis(axis, index)),
        "Strided::insert_axis" => call.told(|| view.insert_axis(axis)),
        "Strided::permuted_axes" => call.told(|| view.permuted_axes(&axes)),
        _ => return None,
    };
    Some(and_view(call, told, &view))
}

/// A text, and whether a view is the one that a call was lent.
fn and_view(call: &Call, told: String, view: &Strided<IxDyn>) -> String {
    let lent = call.view().written();
    if view.written() == lent { format!("{told} of it") } else { format!("{told} of {}", view.written()) }
}
