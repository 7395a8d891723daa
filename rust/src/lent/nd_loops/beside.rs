// Made by `rust/erase` of `crates/nd_loops/src/beside.rt`: edit that.
//! Arrays beside another one of their shape, whose items are read while a closure is called at its items: none, one, or two of these.

use crate::lent::nd_access::{LentRow, LentRows, Reader};
use crate::ndarray_layout::{Lengths, Order, Row, Strided, rows_along};

/// Arrays that stand beside another one of their shape, to be read.
pub trait Beside: Sized + Sized {
    /// What is shown beside an item.
    type Item;

    /// What stands beside the rows of that one.
    type Rows: Sized;

    /// And beside the items of one of them.
    type One: Sized;

    /// Whether each array has this shape.
    ///
    /// <details><summary>Contract (proved)</summary>
    ///
    /// ```text
    /// ensures IsTrue result ↔ have_shape self.now lens.now
    /// ```
    /// [How to read it](crate::contracts)
    /// </details>
    fn have_shape(&self, lens: &[usize]) -> bool;

    /// How many arrays they are.
    ///
    /// <details><summary>Contract (proved)</summary>
    ///
    /// ```text
    /// requires length (layouts self.now) ≤ 5
    /// ensures count: result ≡ length (layouts self.now)
    /// ensures valid: (lens : List ℕ) → have_shape self.now lens
    ///     → All (λ strides. IsValidLayout lens (all_signed strides)) (layouts self.now)
    /// ```
    /// [How to read it](crate::contracts)
    /// </details>
    fn count(&self) -> usize;

    /// The stride of an axis of the array of a number; any number where there is no such axis.
    ///
    /// <details><summary>Contract (proved)</summary>
    ///
    /// ```text
    /// requires length (layouts self.now) ≤ 5
    /// ensures axis < length (slice_index_or (layouts self.now) number []) →
    ///     result ≡ slice_index (slice_index_or (layouts self.now) number []) axis
    /// ```
    /// [How to read it](crate::contracts)
    /// </details>
    fn stride(&self, number: usize, axis: usize) -> usize;

    /// The rows along joined axes, of which `along` has the stride in each array (`joined_in_each`).
    ///
    /// <details><summary>Contract (proved)</summary>
    ///
    /// ```text
    /// requires few: length (layouts self) ≤ 5
    /// requires count: length along.now ≡ length (layouts self)
    /// requires shape: have_shape self lens.now
    /// requires axes: joined.0 ≤ length lens.now
    /// requires joined: (number : ℕ) → number < length (layouts self) → IsJoined RowMajor lens.now
    ///     (slice_index_or (layouts self) number []) joined.0 joined.1 (slice_index along.now number)
    /// ensures count: (rows : List Row) → map (λ row. row.len) rows ≡ row_lens RowMajor lens.now joined.0 joined.1
    ///     → AllZip (λ row one. length (values one) ≡ row.len) rows (ones result rows)
    /// ensures values: (rows : List Row) → map (λ row. row.len) rows ≡ row_lens RowMajor lens.now joined.0 joined.1
    ///     → length (rows_places rows) ≡ size lens.now
    ///     → flat_map values (ones result rows) ≡ map (at self) (indices_in RowMajor lens.now)
    /// ```
    /// [How to read it](crate::contracts)
    /// </details>
    fn into_rows(self, lens: &[usize], joined: (usize, usize), along: &[usize]) -> Self::Rows;

    /// What stands beside the next row.
    ///
    /// <details><summary>Contract (proved)</summary>
    ///
    /// ```text
    /// ensures (others : List Row) → MatchOption result (ones rows.old (row ∷ others) ≡ [])
    ///     (λ one. ones rows.old (row ∷ others) ≡ one ∷ ones rows.new others)
    /// ```
    /// [How to read it](crate::contracts)
    /// </details>
    fn next_beside(rows: &mut Self::Rows, row: Row) -> Option<Self::One>;

    /// What stands beside the item of a coordinate.
    ///
    /// # Conditions
    ///
    /// The caller ensures that it is one of the row. Otherwise this call or a later one panics or returns unspecified
    /// values.
    ///
    /// <details><summary>Contract (proved)</summary>
    ///
    /// ```text
    /// requires coordinate < length (values one.now)
    /// ensures slice_index_or (values one.now) coordinate None ≡ Some (value result)
    /// ```
    /// [How to read it](crate::contracts)
    /// </details>
    fn item(one: &Self::One, coordinate: usize) -> Self::Item;

    /// The same as slices, where the items follow one another; else `None`.
    ///
    /// <details><summary>Contract (proved)</summary>
    ///
    /// ```text
    /// ensures IfSome result (λ row. values row ≡ values one.now)
    /// ```
    /// [How to read it](crate::contracts)
    /// </details>
    fn alone(one: &Self::One) -> Option<Self::One>;

    /// The same by the stride -1 as a number that rustc knows, where that is the stride; else `None`.
    ///
    /// <details><summary>Contract (proved)</summary>
    ///
    /// ```text
    /// ensures IfSome result (λ row. row ≡ one.now)
    /// ```
    /// [How to read it](crate::contracts)
    /// </details>
    fn backwards(one: &Self::One) -> Option<Self::One>;
}

/// The number of an axis.
///
/// <details><summary>Contract (proved)</summary>
///
/// ```text
/// requires axis < length numbers.now
/// ensures result ≡ slice_index numbers.now axis
/// ```
/// [How to read it](crate::contracts)
/// </details>
#[inline(always)]
pub(crate) fn number_at(numbers: &[usize], axis: usize) -> usize {
    numbers[axis]
}

/// The number of an axis; 0 where there is no such axis.
///
/// <details><summary>Contract (proved)</summary>
///
/// ```text
/// ensures axis < length numbers.now → result ≡ slice_index numbers.now axis
/// ```
/// [How to read it](crate::contracts)
/// </details>
#[inline(always)]
fn number_or_zero(numbers: &[usize], axis: usize) -> usize {
    if axis < numbers.len() { numbers[axis] } else { 0 }
}

/// A row by the stride -1 as a number that rustc knows, where that is its stride; else `None`.
///
/// <details><summary>Contract (proved)</summary>
///
/// ```text
/// ensures IfSome result (λ known. known ≡ row)
/// ```
/// [How to read it](crate::contracts)
/// </details>
#[inline(always)]
pub(crate) fn back(row: Row) -> Option<Row> {
    if row.stride != -1 {
        return None;
    }
    Some(Row { start: row.start, stride: -1, len: row.len })
}

/// Nothing beside the items of a row.
pub struct Nothing {
    row: Row,
}

impl Beside for () {
    type Item = ();

    type Rows = ();

    type One = Nothing;

    #[inline(always)]
    fn have_shape(&self, _lens: &[usize]) -> bool {
        true
    }

    #[inline(always)]
    fn count(&self) -> usize {
        0
    }

    #[inline(always)]
    fn stride(&self, _number: usize, _axis: usize) -> usize {
        0
    }

    #[inline(always)]
    fn into_rows(self, _lens: &[usize], _joined: (usize, usize), _along: &[usize]) {}

    #[inline(always)]
    fn next_beside(_rows: &mut (), row: Row) -> Option<Nothing> {
        Some(Nothing { row })
    }

    #[inline(always)]
    fn item(_one: &Nothing, _coordinate: usize) {}

    #[inline(always)]
    fn alone(one: &Nothing) -> Option<Nothing> {
        Some(Nothing { row: one.row })
    }

    #[inline(always)]
    fn backwards(one: &Nothing) -> Option<Nothing> {
        Some(Nothing { row: one.row })
    }
}

/// An array whose items are lent to be read beside those of another one, with its lengths and strides as lists.
pub struct LentView<'a, U> {
    pub reader: Reader<'a, U>,
    pub start: usize,
    pub lens: &'a [usize],
    pub strides: &'a [usize],
}

/// The array of these items and this view, to be read beside another one.
///
/// <details><summary>Contract (proved)</summary>
///
/// ```text
/// requires is_view: IsView view.now
/// requires items: All (IsInBounds (length reader.items)) (view_places RowMajor view.now)
/// requires marked: HaveMarks reader.marks (view_places RowMajor view.now)
/// ensures lens: result.lens ≡ view.now.shape
/// ensures array: array_of_lent result ≡ record { items = reader.entry.items; view = view.now }
/// ```
/// [How to read it](crate::contracts)
/// </details>
#[inline(always)]
pub fn lent_view<'a, U, D: Lengths>(reader: Reader<'a, U>, view: &'a Strided<D>) -> LentView<'a, U> {
    LentView { reader, start: view.start(), lens: view.dim().slice(), strides: view.strides().slice() }
}

impl<'a, U> Beside for LentView<'a, U> {
    type Item = &'a U;

    type Rows = LentRows<'a, U>;

    type One = LentRow<'a, U>;

    #[inline(always)]
    fn have_shape(&self, lens: &[usize]) -> bool {
        lens == self.lens
    }

    #[inline(always)]
    fn count(&self) -> usize {
        // (read, so that its invariant is known)
        let _lens = self.lens;
        1
    }

    #[inline(always)]
    fn stride(&self, _number: usize, axis: usize) -> usize {
        number_or_zero(self.strides, axis)
    }

    #[inline(always)]
    fn into_rows(self, _lens: &[usize], joined: (usize, usize), along: &[usize]) -> LentRows<'a, U> {
        let LentView { reader, start, lens, strides } = self;
        let rows = rows_along(Order::RowMajor, start, lens, strides, joined, number_at(along, 0));
        LentRows::new(reader, rows)
    }

    #[inline(always)]
    fn next_beside(rows: &mut LentRows<'a, U>, _row: Row) -> Option<LentRow<'a, U>> {
        rows.next()
    }

    #[inline(always)]
    fn item(one: &LentRow<'a, U>, coordinate: usize) -> &'a U {
        one.item(coordinate)
    }

    #[inline(always)]
    fn alone(one: &LentRow<'a, U>) -> Option<LentRow<'a, U>> {
        one.alone()
    }

    #[inline(always)]
    fn backwards(one: &LentRow<'a, U>) -> Option<LentRow<'a, U>> {
        let row = back(one.row)?;
        Some(LentRow { reader: one.reader.copied(), row })
    }
}

impl<A: Beside, B: Beside> Beside for (A, B) {
    type Item = (A::Item, B::Item);

    type Rows = (A::Rows, B::Rows);

    type One = (A::One, B::One);

    #[inline(always)]
    fn have_shape(&self, lens: &[usize]) -> bool {
        self.0.have_shape(lens) && self.1.have_shape(lens)
    }

    #[inline(always)]
    fn count(&self) -> usize {
        self.0.count() + self.1.count()
    }

    #[inline(always)]
    fn stride(&self, number: usize, axis: usize) -> usize {
        let first = self.0.count();
        if number < first {
            return self.0.stride(number, axis);
        }
        self.1.stride(number - first, axis)
    }

    #[inline(always)]
    fn into_rows(self, lens: &[usize], joined: (usize, usize), along: &[usize]) -> (A::Rows, B::Rows) {
        let (first, second) = self;
        let (these, others) = along.split_at(first.count());
        let first = first.into_rows(lens, joined, these);
        (first, second.into_rows(lens, joined, others))
    }

    #[inline(always)]
    fn next_beside(rows: &mut (A::Rows, B::Rows), row: Row) -> Option<(A::One, B::One)> {
        let first = A::next_beside(&mut rows.0, row)?;
        Some((first, B::next_beside(&mut rows.1, row)?))
    }

    #[inline(always)]
    fn item(one: &(A::One, B::One), coordinate: usize) -> (A::Item, B::Item) {
        (A::item(&one.0, coordinate), B::item(&one.1, coordinate))
    }

    #[inline(always)]
    fn alone(one: &(A::One, B::One)) -> Option<(A::One, B::One)> {
        let first = A::alone(&one.0)?;
        Some((first, B::alone(&one.1)?))
    }

    #[inline(always)]
    fn backwards(one: &(A::One, B::One)) -> Option<(A::One, B::One)> {
        let first = A::backwards(&one.0)?;
        Some((first, B::backwards(&one.1)?))
    }
}
