//! The calls of rows about a dimension or a layout.

use super::{dims, indices, layouts};
use crate::table::{Words, at_type};
use ndarray_layout::IxDyn;

/// Up to three lists that a call takes. Those that a row doesn't have are empty.
pub type Lists = [Vec<usize>; 3];

/// What a call gives at `IxDyn`, which it gives as well at the type that fixes as many axes as its first list has.
pub fn answer(call: &str, words: &mut Words) -> String {
    let lists: Lists = std::array::from_fn(|_| words.try_word().map_or(Vec::new(), crate::table::numbers));
    let axes = Some(lists[0].len());
    let answers = match call {
        "fold" | "fold_f" => [Some(indices::folded(call, &lists[0])), None],
        "remove_axis" => [dims::removed_at(axes, &lists), dims::removed_at(None, &lists)],
        _ if layouts::CALLS.contains(&call) => {
            [at_type!(axes, D => layouts::answer_at::<D>(call, &lists)), layouts::answer_at::<IxDyn>(call, &lists)]
        }
        _ => [at_type!(axes, D => dims::answer_at::<D>(call, &lists)), dims::answer_at::<IxDyn>(call, &lists)],
    };
    let [first, second] = answers;
    if let (Some(first), Some(second)) = (&first, &second) {
        assert_eq!(first, second, "{call} {lists:?}");
    }
    first.or(second).expect("a type that has the lists")
}
