//! Calls of an array of numbers, 0 and so on: the lists are its shape, its strides, how many items it has, and the
//! items that are written to each of the first two coordinates of its first axis.

use crate::call::Call;
use crate::written::{Written, list};
use ndarray_layout::{IxDyn, LayoutError, OwnedArray, SliceInfoElem, StrideShape, Strides};

/// What a call answers.
pub fn answer(call: &Call) -> Option<String> {
    let items = (0..call.list(2)[0]).collect();
    if call.name == "OwnedArray::from_shape_vec" {
        return Some(by_columns(call, items));
    }
    let mut array = OwnedArray::from_shape_vec(call.laid(), items).ok()?;
    let reversed = call.reversed();
    Some(match call.name {
        "OwnedArray::items" => call.told(|| array.items(&reversed)),
        "OwnedArray::ready" => call.told(|| array.ready(&reversed)),
        "OwnedArray::items_of" => {
            let ready = array.ready(&reversed).ok()?;
            let first = IxDyn(&vec![0; reversed.len()]);
            call.told(|| array.items_of(&ready, &first))
        }
        "OwnedArray::try_view" => call.told(|| array.try_view()),
        "OwnedArray::try_view_mut" => call.told(|| array.try_view_mut()),
        "OwnedArray::into_list" => call.told(|| array.into_list()),
        "OwnedArray::into_dimensionality" => call.told(|| array.into_dimensionality::<IxDyn>()),
        "ArrayView::map_to_vec" => {
            let lent = array.try_view().ok()?;
            call.told(|| lent.map_to_vec(|item| item + 50))
        }
        "OwnedArray::map_in_place" => {
            let mapped = call.makes(|| array.map_in_place(&reversed, |item| *item += 50));
            left(mapped, array.stored())
        }
        "OwnedArray::multi_set" => {
            let writes = [0, 1].map(|coordinate| write(call, coordinate));
            let written = call.makes(|| array.multi_set(&writes));
            left(written, array.stored())
        }
        _ => return None,
    })
}

/// What a call answers, and the items that it leaves or hands back.
fn left(answer: Result<(), LayoutError>, items: &[usize]) -> String {
    let word = answer.map_or_else(|error| error.written(), |()| "Ok".to_owned());
    format!("{word} {}", list(items))
}

/// The shape of the array, in column-major order, over its items.
fn by_columns(call: &Call, items: Vec<usize>) -> String {
    let shape = StrideShape { dim: call.dim(0), strides: Strides::F };
    match call.makes(|| OwnedArray::<_, IxDyn>::from_shape_vec(shape, items)) {
        Ok(array) => left(Ok(()), array.stored()),
        Err((error, items)) => left(Err(error), &items),
    }
}

/// The items for a coordinate of the first axis, the others from the last coordinate back.
fn write(call: &Call, coordinate: isize) -> (Vec<SliceInfoElem>, Vec<usize>) {
    let mut slice = call.reversed();
    slice[0] = SliceInfoElem::Index(coordinate);
    (slice, call.list(3))
}
