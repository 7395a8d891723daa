// Made by `rust/erase` of `crates/nd_loops/src/triples.rt`: edit that.
//! Writes to the items of a part by those of two other arrays, side by side.

use crate::lent::nd_access::{Cells, LentRows};
use crate::lent::nd_loops::beside::LentView;
use crate::lent::nd_loops::calling::call_rows;
use crate::lent::nd_loops::zipping::rows_beside;
use crate::ndarray_layout::{Lengths, Rows, Strided};

/// Calls a closure at each item of these rows and at the next ones of two lists of other rows.
///
/// <details><summary>Contract (proved)</summary>
///
/// ```text
/// requires rows: OwnsEachRow cells.old.marks rows
/// requires count: AllZip (λ row both. length (pairs_of (row_items both.0) (row_items both.1)) ≡ row.len) rows (zip others.0 others.1)
/// requires callable: CallableOnEachTriple F.FnMut (items_beside cells.old.items (rows_places rows)
///     (flat_map (λ both. pairs_of (row_items both.0) (row_items both.1)) (zip others.0 others.1))) f
/// ensures ran: Maps (CalledAtTriple F.FnMut) f (rows_places rows.entry) (items_beside cells.old.items (rows_places rows.entry)
///     (flat_map (λ both. pairs_of (row_items both.0) (row_items both.1)) (zip others.entry.0 others.entry.1))) cells.old.items cells.new.items
/// ```
/// [How to read it](crate::contracts)
/// </details>
#[inline(always)]
fn zip_two_rows<T, U, V, F: for<'x> FnMut(&'x mut T, &'x U, &'x V)>(
    cells: &mut Cells<'_, T>,
    rows: Rows<'_>,
    others: (LentRows<'_, U>, LentRows<'_, V>),
    mut f: F,
) {
    call_rows::<T, (LentView<'_, U>, LentView<'_, V>), _>(
        cells,
        rows,
        others,
        move |stored: &mut T, both: (&U, &V)| {
            f(stored, both.0, both.1);
        },
    );
}

/// Calls a closure at the item of each index of a view and at those of the same index of two arrays of its shape, in row-major order.
///
/// <details><summary>Contract (proved)</summary>
///
/// ```text
/// requires first: view.now.shape ≡ others.0.lens
/// requires second: view.now.shape ≡ others.1.lens
/// requires own_view: IsView view.now
/// requires own: AreOwn cells.old.marks (view_places RowMajor view.now)
/// requires callable: CallableOnEachTriple F.FnMut (items_beside cells.old.items (view_places RowMajor view.now)
///     (map (both_at others.0 others.1) (indices_in RowMajor view.now.shape))) f
/// ensures ran: Maps (CalledAtTriple F.FnMut) f (view_places RowMajor view.now)
///     (items_beside cells.old.items (view_places RowMajor view.now)
///     (map (both_at others.entry.0 others.entry.1) (indices_in RowMajor view.now.shape))) cells.old.items cells.new.items
/// ```
/// [How to read it](crate::contracts)
/// </details>
#[inline(always)]
pub fn zip_two_view<T, U, V, D: Lengths, F: for<'x> FnMut(&'x mut T, &'x U, &'x V)>(
    cells: &mut Cells<'_, T>,
    view: &Strided<D>,
    others: (LentView<'_, U>, LentView<'_, V>),
    f: F,
) {
    let (rows, others) = rows_beside(view, others);
    zip_two_rows(cells, rows, others, f);
}
