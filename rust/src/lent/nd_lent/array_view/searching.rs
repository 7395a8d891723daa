// Made by `rust/erase` of `crates/nd_lent/src/array_view/searching.rt`: edit that.
//! The first item at which a function returns what is looked for.

use crate::lent::nd_lent::array_view::ArrayView;
use crate::lent::nd_loops::search_row;
use crate::ndarray_layout::Lengths;

impl<T, D: Lengths> ArrayView<'_, T, D> {
    /// Calls a function at one item after another, in row-major order, up to the first at which it returns what is looked for:
    /// whether there is one.
    ///
    /// <details><summary>Contract (proved)</summary>
    ///
    /// ```text
    /// requires CallableWhile lends F.FnMut (not wanted)
    ///     (map (item_at_place self.now.items) (view_places RowMajor self.now.view)) f
    /// ensures (last : F) × HasSearched F.FnMut wanted f
    ///     (map (item_at_place self.now.items) (view_places RowMajor self.now.view)) result last
    /// ```
    /// [How to read it](crate::contracts)
    /// </details>
    #[inline(always)]
    pub(super) fn search<F: FnMut(&T) -> bool>(&self, wanted: bool, f: F) -> bool {
        let mut f = f;
        for row in self.joined_rows() {
            let (found, searched) = search_row(&row, wanted, f);
            if found {
                return true;
            }
            f = searched;
        }
        false
    }
}
