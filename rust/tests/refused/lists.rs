//! Calls that make a value of any number of axes of a list: the second list is a place in it, or the lengths of another
//! shape.

use crate::call::Call;
use crate::dimensions::built;
use crate::written::Written;
use Fit::Strict;
use ndarray_layout::{
    CanIndexCheckMode, Dimension, Fit, IndexCursor, IndexCursorF, IntoDimension, Ix1, IxDyn, IxDynImpl, Lengths,
    ShapeArg, ShapeError, SliceInfoElem, Strided, all_indices, any_elems_intersection, co_broadcast,
    first_elems_intersection_sorted, first_intersection_sorted, indices_iter_f, new_dim, new_ixdyn,
};

/// What a call answers, by the group of its name.
pub fn answer(call: &Call) -> Option<String> {
    let lens = call.list(0);
    match call.name.split_once("::") {
        Some(("ShapeBuilder", name)) => built(call, name, &lens[..], &lens[..]),
        Some(("IxDynImpl", name)) => of_coordinates(call, name, &lens),
        Some(("Vec", name)) => of_vector(call, name, lens),
        Some(("walk", name)) => iterated(call, name),
        Some(("Strided", _)) => of_coordinates_as_slices(call, &lens),
        _ => of_slice(call, &lens),
    }
}

fn of_slice(call: &Call, lens: &[usize]) -> Option<String> {
    let (first, second) = (call.dim(0), call.dim(1));
    Some(match call.name {
        "new_ixdyn" => call.told(|| new_ixdyn(lens)),
        "new_dim" => call.told(|| new_dim(lens)),
        "into_dimension" => call.told(|| lens.into_dimension()),
        "into_shape_and_order" => call.told(|| lens.into_shape_and_order()),
        "zeros" => call.told(|| IxDyn::zeros(lens.len())),
        "copy_from" => call.told(|| IxDynImpl::copy_from(lens)),
        "co_broadcast" => call.told(|| co_broadcast::<_, _, IxDyn>(&first, &second)),
        _ => return of_coordinates_as_slices(call, lens),
    })
}

/// Two of many coordinates that are equal, as slices of an axis, whose length is the second list.
fn of_coordinates_as_slices(call: &Call, coordinates: &[usize]) -> Option<String> {
    let slices: Vec<_> = coordinates.iter().map(|coordinate| [SliceInfoElem::from(*coordinate as isize)]).collect();
    let dim = Ix1(*call.list(1).first()?);
    let view = Strided::from_shape(dim.into(), 0, dim.size(), CanIndexCheckMode::ReadOnly).ok()?;
    let pair = |found: Result<Option<(usize, usize)>, ShapeError>| {
        found.unwrap().map_or(vec![], |(one, other)| vec![one, other]).written()
    };
    Some(match call.name {
        "first_intersection_sorted" => pair(call.makes(|| first_intersection_sorted(&dim, &slices, Strict))),
        "Strided::first_intersection_sorted" => pair(call.makes(|| view.first_intersection_sorted(&slices, Strict))),
        "any_elems_intersection" => pair(call.makes(|| Ok(any_elems_intersection(dim.slice(), &slices, Strict)))),
        "first_elems_intersection_sorted" => call.told(|| {
            first_elems_intersection_sorted(dim.slice(), &slices, Strict).map(|found| found.is_some() as usize)
        }),
        _ => return None,
    })
}

fn of_coordinates(call: &Call, name: &str, lens: &[usize]) -> Option<String> {
    let (items, place) = (IxDynImpl::from(lens), call.list(1));
    Some(match name {
        "insert" => call.told(|| items.insert(place[0])),
        "remove" => call.told(|| items.remove(place[0])),
        "into_dimension" => call.told(|| items.into_dimension()),
        _ => return None,
    })
}

fn of_vector(call: &Call, name: &str, lens: Vec<usize>) -> Option<String> {
    Some(match name {
        "from_vec" => call.told(|| IxDynImpl::from_vec(lens)),
        "into_dimension" => call.told(|| lens.into_dimension()),
        _ => return None,
    })
}

/// How many indices an iterator is over that a call begins.
fn iterated(call: &Call, name: &str) -> Option<String> {
    let dim = call.dim(0);
    let count = dim.size();
    Some(match name {
        "IndexCursor::new" => call.told(|| IndexCursor::new(dim).map(|cursor| cursor.len())),
        "IndexCursorF::new" => call.told(|| IndexCursorF::new(dim).map(|cursor| cursor.len())),
        "all_indices" => call.told(|| all_indices(dim).map(|_| count)),
        "indices_iter_f" => call.told(|| indices_iter_f(dim).map(|_| count)),
        _ => return None,
    })
}
