//! Calls of numbers that are lent in parts, to be written: the lists are the shape and the strides of all, and the
//! number of an axis and of a coordinate.

use crate::call::Call;
use CanIndexCheckMode::OwnedMutable;
use ndarray_layout::{ArrayViewMut, CanIndexCheckMode, IxDyn, SliceInfoElem, SplitViews, Strided};
use std::array;

/// What a call answers.
pub fn answer(call: &Call) -> Option<String> {
    let mut numbers: [usize; 12] = array::from_fn(|number| number);
    let (axis, index) = call.axis_and_index();
    if call.name == "SplitViews::new" {
        let view = Strided::from_shape(call.laid(), 1, numbers.len(), OwnedMutable).ok()?;
        return Some(call.told(|| SplitViews::new(view, numbers.len(), axis, index)));
    }
    let array = ArrayViewMut::from_shape(call.laid(), &mut numbers).ok()?;
    let all = SliceInfoElem::from(..);
    let at = |coordinate: usize| (coordinate..coordinate + 1).into();
    let halves = [(..1).into(), (1..).into()].map(|half| [half, all, all, all, all, all]);
    Some(match call.name {
        "ArrayViewMut::split_at" => call.told(|| array.split_at(axis, index)),
        "ArrayViewMut::slice_parts" => {
            let tiles: [_; 6] = array::from_fn(|tile| [at(tile % 2), all, at(tile / 2), all, all, all]);
            let tiles = tiles.each_ref().map(|tile| &tile[..]);
            call.told(|| array.slice_parts(&tiles).ok().map(|_| (tiles.len(), 0)))
        }
        "SliceParts::try_next" => {
            let slices = halves.each_ref().map(|half| &half[..]);
            let mut parts = array.slice_parts(&slices).ok()?;
            call.told(|| parts.try_next::<IxDyn>())
        }
        "ArrayViewMut::multi_slice_move" => call.told(|| array.multi_slice_move::<_, IxDyn>(&halves)),
        _ => return None,
    })
}
