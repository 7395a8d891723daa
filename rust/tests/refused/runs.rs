//! A run of a step of each kind: the lists are the shape and the strides of the view that it begins with, and the
//! shapes of the reshape and of the broadcast.

use crate::call::Call;
use crate::written::Written;
use Fit::Strict;
use Order::RowMajor;
use ndarray_layout::{Axis, Fit, Order, Step, run};

/// What the run answers: the view, or how many steps were taken and the view that they left.
pub fn answer(call: &Call) -> Option<String> {
    if call.name != "run" {
        return None;
    }
    let (view, last) = (call.view(), call.list(0).len() - 1);
    let steps = [
        Step::Slice(call.reversed(), Strict),
        Step::Collapse(Axis(0), 1),
        Step::Merge(Axis(last - 1), Axis(last)),
        Step::Reshape(call.dim(2), RowMajor),
        Step::Broadcast(call.dim(3)),
    ];
    Some(match call.makes(|| run(view, &steps)) {
        Ok(view) => view.written(),
        Err(stopped) => format!("{} {} {}", stopped.fault.written(), stopped.at, stopped.view.written()),
    })
}
