// Made by `rust/erase` of `crates/nd_items/src/items.rt`: edit that.
//! The items of a part one after another, each lent to be written, without a list of them.

use crate::lent::nd_access::Cells;
use crate::ndarray_layout::{IntoPlaces, Ix1, Lengths, Order, Strided};
use core::iter::FusedIterator;

/// The items of a part that are still to come, in row-major order of their indices, from both ends, each lent to be written.
/// ndarray's `IterMut`.
pub struct IterMut<'a, T, D: Lengths> {
    cells: Cells<'a, T>,
    places: IntoPlaces<D>,
}

impl<'a, T, D: Lengths> Iterator for IterMut<'a, T, D> {
    type Item = &'a mut T;

    #[inline(always)]
    fn next(&mut self) -> Option<&'a mut T> {
        let place = self.places.next()?;
        self.cells.take_slice(place, 1).first_mut()
    }

    #[inline]
    fn size_hint(&self) -> (usize, Option<usize>) {
        self.places.size_hint()
    }

    crate::arrays::fold_by_rest!();
}

impl<'a, T, D: Lengths> DoubleEndedIterator for IterMut<'a, T, D> {
    #[inline]
    fn next_back(&mut self) -> Option<&'a mut T> {
        let place = self.places.next_back()?;
        self.cells.take_slice(place, 1).first_mut()
    }

    crate::arrays::skip_back!();
}

impl<'a, T, D: Lengths> ExactSizeIterator for IterMut<'a, T, D> {
    #[inline]
    fn len(&self) -> usize {
        self.places.len()
    }
}

impl<'a, T, D: Lengths> FusedIterator for IterMut<'a, T, D> {}

impl<'a, T, D: Lengths> IterMut<'a, T, D> {
    /// The items of a view. The caller ensures that each index has a place to itself, which has a mark.
    ///
    /// <details><summary>Contract (proved)</summary>
    ///
    /// ```text
    /// ensures items: items_left result ≡ map (item_at_place cells.entry.items) (view_places RowMajor view)
    /// ```
    /// [How to read it](crate::contracts)
    /// </details>
    #[inline]
    pub(in crate::lent) fn of_cells(cells: Cells<'a, T>, view: Strided<D>) -> Self {
        IterMut { cells, places: view.into_places(Order::RowMajor) }
    }

    /// Skips the next `count` items, or all that remain. They are unchanged.
    ///
    /// Takes no memory, and no time for each of them (`PlacesOf::advance`).
    ///
    /// Of the items of `[2,2]` over 5 6 7 8, after 3 of them: 8. What `nth` of std's iterators skips one by one.
    ///
    /// <details><summary>Contract (proved)</summary>
    ///
    /// ```text
    /// ensures left: items_left self.new ≡ drop count (items_left self.old)
    /// ensures keeps_access: access_left self.new ≡ access_left self.old
    /// ```
    /// [How to read it](crate::contracts)
    /// </details>
    #[inline]
    pub fn advance(&mut self, count: usize) {
        self.places.advance(count);
    }

    /// Skips the last `count` items, or all that remain. They are unchanged.
    ///
    /// Takes no memory, and no time for each of them (`PlacesOf::advance_back`).
    ///
    /// Of the items of `[2,2]` over 5 6 7 8, without the last 3: 5. What `nth_back` of std's iterators skips one by one.
    ///
    /// <details><summary>Contract (proved)</summary>
    ///
    /// ```text
    /// ensures left: items_left self.new ≡ take (length (items_left self.old) - count) (items_left self.old)
    /// ensures keeps_access: access_left self.new ≡ access_left self.old
    /// ```
    /// [How to read it](crate::contracts)
    /// </details>
    #[inline]
    pub fn advance_back(&mut self, count: usize) {
        self.places.advance_back(count);
    }
}

impl<'a, T, D: Lengths> IterMut<'a, T, D> {
    /// The right to the items that come next and lie evenly, and a view of them: what is left of the row in progress, or else the next
    /// row; `None` after the last item.
    ///
    /// <details><summary>Contract (proved)</summary>
    ///
    /// ```text
    /// ensures row: MatchOption result ((items_left self.old ≡ []) × (items_left self.new ≡ []))
    ///     (λ (cells, view). items_left self.old ≡ items_of (record { items = cells.items; view = view }) ++ items_left self.new)
    /// ensures some: IfSome result (λ (cells, view). items_of (record { items = cells.items; view = view }) ≢ [])
    /// ```
    /// [How to read it](crate::contracts)
    /// </details>
    #[inline]
    pub(in crate::lent) fn next_part(&mut self) -> Option<(Cells<'a, T>, Strided<Ix1>)> {
        let row = self.places.next_row()?;
        let view = row.layout();
        Some((self.cells.take_view(&view), view))
    }

    /// `next_part` from the back: the last items that lie evenly; `None` before the first item.
    ///
    /// <details><summary>Contract (proved)</summary>
    ///
    /// ```text
    /// ensures row: MatchOption result ((items_left self.old ≡ []) × (items_left self.new ≡ []))
    ///     (λ (cells, view). items_left self.old ≡ items_left self.new ++ items_of (record { items = cells.items; view = view }))
    /// ensures some: IfSome result (λ (cells, view). items_of (record { items = cells.items; view = view }) ≢ [])
    /// ```
    /// [How to read it](crate::contracts)
    /// </details>
    #[inline]
    pub(in crate::lent) fn next_part_back(&mut self) -> Option<(Cells<'a, T>, Strided<Ix1>)> {
        let row = self.places.next_row_back()?;
        let view = row.layout();
        Some((self.cells.take_view(&view), view))
    }
}

/// How many items a row has at least that is folded as a slice: one by one, those of fewer take less time.
const LONG: usize = 8;

/// Calls a function with a total and an item, and hands it back.
///
/// <details><summary>Contract (proved)</summary>
///
/// ```text
/// requires F.pre f total item
/// ensures F.step f total item.entry result.0 result.1
/// ```
/// [How to read it](crate::contracts)
/// </details>
#[inline(always)]
fn turn<'a, T, B, F: FnMut(B, &'a mut T) -> B>(mut f: F, total: B, item: &'a mut T) -> (B, F) {
    let next = f(total, item);
    (next, f)
}

/// Folds the items of a slice, and hands back the function.
///
/// <details><summary>Contract (proved)</summary>
///
/// ```text
/// requires CallableInFold lends_mut F.FnMut (map Some items.old) f init
/// ensures HasFoldedMut F.FnMut (f, init) (map Some items.old) (result.1, result.0)
/// ```
/// [How to read it](crate::contracts)
/// </details>
#[inline(always)]
fn fold_slice<'a, T, B, F: FnMut(B, &'a mut T) -> B>(items: &'a mut [T], init: B, f: F) -> (B, F) {
    let (mut total, mut f) = (init, f);
    for item in items.iter_mut() {
        (total, f) = turn(f, total, item);
    }
    (total, f)
}

/// Folds the items of a view, and hands back the function: where they follow one another, as a slice.
///
/// # Conditions
///
/// The caller ensures that each index has a place to itself, which has a mark. Otherwise the behaviour is undefined.
///
/// <details><summary>Contract (proved)</summary>
///
/// ```text
/// requires callable: CallableInFold lends_mut F.FnMut (items_of (record { items = cells.items; view = view })) f init
/// ensures HasFoldedMut F.FnMut (f, init) (items_of (record { items = cells.entry.items; view = view })) (result.1, result.0)
/// ```
/// [How to read it](crate::contracts)
/// </details>
#[inline(always)]
fn fold_part<'a, T, B, F: FnMut(B, &'a mut T) -> B>(cells: Cells<'a, T>, view: Strided<Ix1>, init: B, f: F) -> (B, F) {
    match view.stretch(Order::RowMajor) {
        Some(places) => {
            let mut cells = cells;
            fold_slice(cells.take_slice(places.start, places.end - places.start), init, f)
        }
        None => IterMut::of_cells(cells, view).fold_each(init, f),
    }
}

impl<'a, T, D: Lengths> IterMut<'a, T, D> {
    /// Folds the items that are left one by one, and hands back the function.
    ///
    /// <details><summary>Contract (proved)</summary>
    ///
    /// ```text
    /// requires CallableInFold lends_mut F.FnMut (items_left self) f init
    /// ensures HasFoldedMut F.FnMut (f, init) (items_left self.entry) (result.1, result.0)
    /// ```
    /// [How to read it](crate::contracts)
    /// </details>
    #[inline]
    fn fold_each<B, F: FnMut(B, &'a mut T) -> B>(self, init: B, f: F) -> (B, F) {
        let (mut total, mut f) = (init, f);
        for item in self {
            (total, f) = turn(f, total, item);
        }
        (total, f)
    }

    /// What `fold` of std's iterators returns of the items that are left, row by row: one whose items follow one another is a loop over
    /// a slice. After a row that is short the others are folded one by one.
    ///
    /// <details><summary>Contract (proved)</summary>
    ///
    /// ```text
    /// requires callable: CallableInFold lends_mut F.FnMut (items_left self) f init
    /// ensures ran: FoldsItems lends_mut F.FnMut (items_left self.entry) f init result
    /// ```
    /// [How to read it](crate::contracts)
    /// </details>
    #[inline]
    pub(in crate::lent) fn fold_rest<B, F: FnMut(B, &'a mut T) -> B>(self, init: B, f: F) -> B {
        let (mut items, mut total, mut f) = (self, init, f);
        while let Some((cells, view)) = items.next_part() {
            let is_short = view.len() < LONG;
            (total, f) = fold_part(cells, view, total, f);
            if is_short {
                let (total, _) = items.fold_each(total, f);
                return total;
            }
        }
        total
    }
}
