// Made by `rust/erase` of `crates/nd_loops/src/zipping.rt`: edit that.
//! Calls of a closure at the items of a part, each with what stands beside it in other arrays of its shape, in row-major order.

use crate::lent::nd_access::Cells;
use crate::lent::nd_loops::beside::{Beside, number_at};
use crate::lent::nd_loops::calling::call_rows;
use crate::ndarray_layout::{LayoutStrides, Lengths, Order, Rows, Strided, joined_in_each, rows_along};

/// How many arrays are gone over at once at most: as many as ndarray's `Zip` has.
const MOST: usize = 6;

/// The strides of a layout, and of those beside it.
struct AllStrides<'a, C: Beside> {
    strides: &'a [usize],
    beside: &'a C,
}

impl<'a, C: Beside> LayoutStrides for AllStrides<'a, C> {
    #[inline(always)]
    fn stride(&self, number: usize, axis: usize) -> usize {
        if number == 0 {
            return number_at(self.strides, axis);
        }
        self.beside.stride(number - 1, axis)
    }
}

/// The rows of a view and what stands beside them, in row-major order: the longest ones that the axes of all allow.
///
/// <details><summary>Contract (proved)</summary>
///
/// ```text
/// requires few: length (C.layouts beside) ≤ 5
/// requires shape: C.have_shape beside view.now.shape
/// ensures is_view: IsView view.now
/// ensures places: rows_places result.0 ≡ view_places RowMajor view.now
/// ensures count: AllZip (λ row one. length (C.values one) ≡ row.len) result.0 (C.ones result.1 result.0)
/// ensures values: flat_map C.values (C.ones result.1 result.0) ≡ map (C.at beside) (indices_in RowMajor view.now.shape)
/// ```
/// [How to read it](crate::contracts)
/// </details>
#[inline(always)]
pub(crate) fn rows_beside<'a, D: Lengths, C: Beside>(view: &'a Strided<D>, beside: C) -> (Rows<'a>, C::Rows) {
    let (lens, strides) = (view.dim().slice(), view.strides().slice());
    let mut along = [0; MOST];
    let (along, _) = along.split_at_mut(beside.count() + 1);
    let all = AllStrides { strides, beside: &beside };
    let joined = joined_in_each(Order::RowMajor, lens, &all, along);
    let rows = rows_along(Order::RowMajor, view.start(), lens, strides, joined, number_at(along, 0));
    let (_, others) = along.split_at(1);
    (rows, beside.into_rows(lens, joined, others))
}

/// Calls a closure at the item of each index of a view and at what stands beside it, in row-major order.
///
/// <details><summary>Contract (proved)</summary>
///
/// ```text
/// requires few: length (C.layouts beside) ≤ 5
/// requires shape: C.have_shape beside view.now.shape
/// requires own: AreOwn cells.old.marks (view_places RowMajor view.now)
/// requires callable: CallableBesideEach (shown_beside C.value) F.FnMut
///     (items_beside cells.old.items (view_places RowMajor view.now)
///     (map (C.at beside) (indices_in RowMajor view.now.shape))) f
/// ensures ran: Maps (CalledBeside (shown_beside C.value) F.FnMut) f (view_places RowMajor view.now)
///     (items_beside cells.old.items (view_places RowMajor view.now)
///     (map (C.at beside) (indices_in RowMajor view.now.shape))) cells.old.items cells.new.items
/// ```
/// [How to read it](crate::contracts)
/// </details>
#[inline(always)]
pub fn zip_views<T, D: Lengths, C: Beside, F: FnMut(&mut T, C::Item)>(
    cells: &mut Cells<'_, T>,
    view: &Strided<D>,
    beside: C,
    f: F,
) {
    let (rows, beside) = rows_beside(view, beside);
    call_rows::<T, C, F>(cells, rows, beside, f);
}
