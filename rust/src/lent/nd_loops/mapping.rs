// Made by `rust/erase` of `crates/nd_loops/src/mapping.rt`: edit that.
//! Calls of a closure at all items of a part.

use crate::lent::nd_access::Cells;
use crate::lent::nd_loops::calling::call_rows;
use crate::lent::nd_loops::nearest::nearest_of_many;
use crate::ndarray_layout::{Lengths, Order, Rows, Strided};

/// Calls a closure at each item of these rows, one after another.
///
/// <details><summary>Contract (proved)</summary>
///
/// ```text
/// requires rows: OwnsEachRow cells.old.marks rows
/// requires callable: CallableOnEachMut F.FnMut (map (item_at_place cells.old.items) (rows_places rows)) f
/// ensures ran: Maps (λ p x y q. CalledAtMut F.FnMut p x tt q y) f (rows_places rows.entry)
///     (map (item_at_place cells.old.items) (rows_places rows.entry)) cells.old.items cells.new.items
/// ```
/// [How to read it](crate::contracts)
/// </details>
#[inline(always)]
fn map_rows<T, F: FnMut(&mut T)>(cells: &mut Cells<'_, T>, rows: Rows<'_>, mut f: F) {
    call_rows::<T, (), _>(cells, rows, (), move |stored: &mut T, _nothing: ()| {
        f(stored);
    });
}

/// Calls a closure at the item of each index of a view, in row-major order.
///
/// <details><summary>Contract (proved)</summary>
///
/// ```text
/// requires own: AreOwn cells.old.marks (view_places RowMajor view.now)
/// requires callable: CallableOnEachMut F.FnMut (map (item_at_place cells.old.items) (view_places RowMajor view.now)) f
/// ensures ran: Maps (λ p x y q. CalledAtMut F.FnMut p x tt q y) f (view_places RowMajor view.now)
///     (map (item_at_place cells.old.items) (view_places RowMajor view.now)) cells.old.items cells.new.items
/// ```
/// [How to read it](crate::contracts)
/// </details>
#[inline(always)]
pub fn map_view<T, D: Lengths, F: FnMut(&mut T)>(cells: &mut Cells<'_, T>, view: &Strided<D>, f: F) {
    map_rows(cells, view.joined_rows(Order::RowMajor), f);
}

/// Calls a closure at the item of each index of a view, each once: in the order in which they lie; with more axes than `nearest_view`
/// sorts, or no more than `few` indices, in row-major order.
///
/// <details><summary>Contract (proved)</summary>
///
/// ```text
/// requires own: AreOwn cells.old.marks (view_places RowMajor view.now)
/// requires callable: InAnyOrder (λ items. CallableOnEachMut F.FnMut items f)
///     (map (item_at_place cells.old.items) (view_places RowMajor view.now))
/// ensures ran: MapsAt (λ p x y q. CalledAtMut F.FnMut p x tt q y) f (view_places RowMajor view.now)
///     cells.old.items cells.new.items
/// ```
/// [How to read it](crate::contracts)
/// </details>
#[inline(always)]
pub fn map_nearest<T, D: Lengths, F: FnMut(&mut T)>(cells: &mut Cells<'_, T>, view: &Strided<D>, few: usize, f: F) {
    match nearest_of_many(view, few) {
        Some(nearest) => map_view(cells, &nearest, f),
        None => map_view(cells, view, f),
    }
}
