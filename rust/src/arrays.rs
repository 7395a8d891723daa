//! What ndarray's users expect of arrays: they are lent again, read and written by index, by row, along an axis and item by
//! item, and copied.
//!
//! Each item is tested, beside a plain model on random layouts too, and says that it isn't proved. The sources have what is
//! proved: the views, `fill`, `assign`, `map_in_place` and what lends parts to threads.

/// Calls a macro for each type of arrays: with its name, the lifetime of its items if it has one, that of what it lends to be read, the call
/// that lends it, and what makes `array` in examples, which is 1 2 3 over 4 5 6.
macro_rules! of_each {
    ($name:ident) => {
        $name!(ArrayView ['a,] 'a duplicate "let array = ArrayView::from_shape((2, 3), &[1, 2, 3, 4, 5, 6])?;");
        $name!(ArrayViewMut ['a,] '_ try_view
            "let mut items = [1, 2, 3, 4, 5, 6];\nlet array = ArrayViewMut::from_shape((2, 3), &mut items)?;");
        $name!(OwnedArray [] '_ try_view "let array = OwnedArray::from_shape_vec((2, 3), vec![1, 2, 3, 4, 5, 6])?;");
    };
}

mod axes;
mod axes_mut;
mod axis_iter;
mod copying;
mod dimensionality;
mod equal_to;
mod folding;
mod from;
mod indexing;
mod iter;
mod lending;
mod multi_slice;
mod own_items;
mod reading;
mod row_slices;
mod shapes;
mod skipping;
mod writing;
mod zip;

pub(crate) use axis_iter::{check_axis, check_chunks};
pub(crate) use folding::{fold_by_rest, fold_indexed, fold_items, fold_lent, fold_row, rfold_lent};
pub(crate) use from::fitting;
pub(crate) use indexing::no_such_index;
pub use multi_slice::MultiSliceArg;
pub(crate) use own_items::{has_items, has_own_items};
pub(crate) use skipping::{skip, skip_back};
