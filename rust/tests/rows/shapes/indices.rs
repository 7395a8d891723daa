//! Folds over copies of iterators over all indices of a shape.

use crate::table::dim_of;
use ndarray_layout::{Dimension, IntoDimension, Ix0, Ix1, Ix2, Ix3, Ix4, Lengths, all_indices, indices_iter_f};

/// How many indices are left when none, one and two of them are gone.
pub fn folded(call: &str, lens: &[usize]) -> String {
    match lens.len() {
        0 => folded_at::<Ix0>(call, lens),
        1 => folded_at::<Ix1>(call, lens),
        2 => folded_at::<Ix2>(call, lens),
        3 => folded_at::<Ix3>(call, lens),
        4 => folded_at::<Ix4>(call, lens),
        count => panic!("{count} axes"),
    }
}

/// The same at a type, by rows or by columns.
fn folded_at<D: Dimension<Pattern: IntoDimension<Dim = D>> + Copy>(call: &str, lens: &[usize]) -> String {
    let shape = dim_of::<D>(lens).unwrap().into_pattern();
    match call {
        "fold" => lefts(all_indices(shape).unwrap().into_iter()),
        _ => lefts(indices_iter_f(shape).unwrap()),
    }
}

/// The same of an iterator. A fold over a copy gives what a loop gives.
fn lefts(mut items: impl ExactSizeIterator<Item: IntoDimension> + Clone) -> String {
    let mut lefts = Vec::new();
    for _ in 0..3 {
        let folded = items.clone().fold(Vec::new(), |mut indices, item| {
            indices.push(list_of(item));
            indices
        });
        let mut looped = Vec::new();
        for item in items.clone() {
            looped.push(list_of(item));
        }
        assert_eq!((folded.len(), folded), (items.len(), looped));
        lefts.push(items.len().to_string());
        items.next();
    }
    lefts.join(" ")
}

fn list_of(index: impl IntoDimension) -> Vec<usize> {
    index.into_dimension().unwrap().slice().to_vec()
}
