//! The calls of rows about a view or an array, by their names. A type stands first: `CALL TYPE ..`.

use super::{arrays, axes, blocks, iterated, layout, ranges, reshapes, runs};
use crate::table::{Words, at_type};
use ndarray_layout::{Dimension, Ix0, Ix1, Ix2, Ix3, IxDyn, Order};

/// What a call returns.
pub fn answer(call: &str, words: &mut Words) -> String {
    match call {
        "run" => return runs::stopped(words),
        "reshape_dim_C" => return reshapes::reshaped(words, Order::C),
        "reshape_dim_F" => return reshapes::reshaped(words, Order::F),
        _ => {}
    }
    let axes = words.ndim();
    match (call, axes) {
        ("index_axis", Some(1)) => axes::indexed::<Ix1>(words),
        ("index_axis", Some(2)) => axes::indexed::<Ix2>(words),
        ("index_axis", None) => axes::indexed::<IxDyn>(words),
        ("crop", Some(0)) => ranges::cropped::<Ix0>(words),
        ("crop", Some(1)) => ranges::cropped::<Ix1>(words),
        ("crop", Some(2)) => ranges::cropped::<Ix2>(words),
        ("crop", Some(3)) => ranges::cropped::<Ix3>(words),
        _ => at_type!(axes, D => answer_at::<D>(call, words)),
    }
}

/// What a call returns at a type.
fn answer_at<D: Dimension>(call: &str, words: &mut Words) -> String {
    match call {
        "new" => layout::told(layout::Layout::read(words).view::<D>()),
        "from_shape" => {
            let (len, dim) = (words.number(), words.dim::<D>());
            layout::told(layout::shaped(dim, layout::read_strides(words), len))
        }
        "from_parts" => {
            let (start, elem_size) = (words.number(), words.number());
            layout::told(layout::Layout::read(words).view_from::<D>(start, elem_size))
        }
        "swap_axes" | "invert_axis" | "reversed_axes" | "permuted_axes" => axes::moved::<D>(call, words),
        "insert_axis" => axes::inserted::<D>(words),
        "diag" => blocks::diagonal::<D>(words),
        "windows" | "exact_chunks" => blocks::taken::<D, IxDyn>(call, words),
        "windows_into" | "exact_chunks_into" => blocks::taken::<IxDyn, D>(call, words),
        "split_at" => ranges::split::<D>(words),
        "stretch" => ranges::stretch::<D>(words),
        "iter_places" => iterated::places::<D>(words),
        "rows" => iterated::rows::<D>(words),
        _ => arrays::answer_at::<D>(call, words),
    }
}
