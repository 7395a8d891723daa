// Made by `rust/erase` of `crates/nd_shape_tests/src/iterators.rt`: edit that.
//! Iterators over all indices of a shape, in either order.
//!
//! A row says how many indices a shape has, and the first ones: all, where there are no more words than that.

use crate::test_tables::{Lists, Words, made};
use ::ndarray_layout::memory::AllocError;
use ::ndarray_layout::nd_dim::{Dimension, IntoDimension, Ix0, Ix1, Ix2, Ix3, IxDyn, Lengths, Order, new_ixdyn};
use ::ndarray_layout::nd_shape::{IndexCursor, IndexCursorF, all_indices, indices_iter_f};

/// What is asked of an iteration in an order.
#[derive(Clone, Copy)]
pub(crate) enum Iteration {
    /// The items of an iterator.
    All(Order),
    /// The indices that a cursor lends.
    Lent(Order),
}

/// Whether a row says this of the iteration over a shape, at the type that fixes its count of axes, or of its cursor.
pub(crate) fn is_iterated(iteration: Iteration, lists: &Lists, answer: &str) -> Option<bool> {
    let lens = lists.first.as_slice();
    let order = match iteration {
        Iteration::All(order) => order,
        Iteration::Lent(order) => {
            return Some(is_lent(order, new_ixdyn(lens).ok()?, answer));
        }
    };
    match lens.len() {
        0 => is_iterated_at::<Ix0>(order, lens, answer),
        1 => is_iterated_at::<Ix1>(order, lens, answer),
        2 => is_iterated_at::<Ix2>(order, lens, answer),
        3 => is_iterated_at::<Ix3>(order, lens, answer),
        _ => None,
    }
}

/// Whether a row says this of the iteration over a shape at a type.
fn is_iterated_at<D>(order: Order, lens: &[usize], answer: &str) -> Option<bool>
where
    D: Dimension + Copy,
    D::Pattern: IntoDimension<Dim = D>,
{
    let dim = made::<D>(lens)?;
    if dim.size_checked().is_none() {
        return None;
    }
    Some(match order {
        Order::RowMajor => are_by_rows(dim.into_pattern(), answer),
        Order::ColumnMajor => are_by_columns(dim.into_pattern(), answer),
    })
}

/// Whether a row says this of the indices of a shape by rows.
///
/// <details><summary>Contract (proved)</summary>
///
/// ```text
/// requires size (T.lens shape) < 2 ^ 64
/// ```
/// [How to read it](ndarray_layout::contracts)
/// </details>
fn are_by_rows<T: IntoDimension>(shape: T, answer: &str) -> bool
where
    T::Dim: Dimension + Copy,
{
    match all_indices(shape) {
        Ok(indices) => yields(indices.into_iter(), answer),
        Err(_) => false,
    }
}

/// Whether a row says this of the indices of a shape by columns.
///
/// <details><summary>Contract (proved)</summary>
///
/// ```text
/// requires size (T.lens shape) < 2 ^ 64
/// ```
/// [How to read it](ndarray_layout::contracts)
/// </details>
fn are_by_columns<T: IntoDimension>(shape: T, answer: &str) -> bool
where
    T::Dim: Dimension + Copy,
{
    match indices_iter_f(shape) {
        Ok(indices) => yields(indices, answer),
        Err(_) => false,
    }
}

// ---- what iterators give

/// How many indices an answer says, and the first ones.
fn counted(answer: &str) -> (Option<usize>, &str) {
    let (count, indices) = answer.split_once(" ").unwrap_or((answer, ""));
    (Words::of(count).length(), indices)
}

/// Whether an item is this index.
fn is_item<T: IntoDimension>(item: Option<T>, index: &str) -> bool {
    match item {
        Some(item) => match item.into_dimension() {
            Ok(coordinates) => Words::of(index).is_list(coordinates.slice()),
            Err(_) => false,
        },
        None => false,
    }
}

/// Whether there is no item.
fn is_end<T: IntoDimension>(item: Option<T>) -> bool {
    match item {
        Some(item) => {
            let _let_go = item.into_dimension();
            false
        }
        None => true,
    }
}

/// Whether an iterator has so many items and the first ones are these, while its length falls by ones; and none follow
/// where these are all.
///
/// <details><summary>Contract (proved)</summary>
///
/// ```text
/// requires can: (state : W) → W.can_next state
/// ```
/// [How to read it](ndarray_layout::contracts)
/// </details>
fn yields<T: IntoDimension, W: ExactSizeIterator<Item = T> + Sized>(mut items: W, answer: &str) -> bool {
    let (Some(mut left), indices) = counted(answer) else {
        return false;
    };
    for index in indices.split_whitespace() {
        if items.len() != left || !is_item(items.next(), index) {
            return false;
        }
        left = left.wrapping_sub(1);
    }
    (items.len(), items.size_hint()) == (left, (left, Some(left)))
        && (left > 0 || is_end(items.next()) && is_end(items.next()))
}

// ---- cursors

/// What lends the indices of a shape, in either order.
trait LendingIteration {
    fn lend(&mut self) -> Option<&[usize]>;

    fn left(&self) -> usize;
}

impl LendingIteration for IndexCursor {
    fn lend(&mut self) -> Option<&[usize]> {
        self.next()
    }

    fn left(&self) -> usize {
        self.len()
    }
}

impl LendingIteration for IndexCursorF {
    fn lend(&mut self) -> Option<&[usize]> {
        self.next()
    }

    fn left(&self) -> usize {
        self.len()
    }
}

/// A shape, where its size fits.
///
/// <details><summary>Contract (proved)</summary>
///
/// ```text
/// ensures IfOk result (λ dim. size (lengths dim) < 2 ^ 64)
/// ```
/// [How to read it](ndarray_layout::contracts)
/// </details>
fn sized(dim: IxDyn) -> Result<IxDyn, AllocError> {
    match dim.size_checked() {
        Some(_) => Ok(dim),
        None => Err(AllocError),
    }
}

/// The cursor over a shape by rows. (It is made here alone, since what is ensured of it is dear.)
fn row_cursor(dim: IxDyn) -> Result<IndexCursor, AllocError> {
    IndexCursor::new(sized(dim)?)
}

/// The cursor over a shape by columns.
fn column_cursor(dim: IxDyn) -> Result<IndexCursorF, AllocError> {
    IndexCursorF::new(sized(dim)?)
}

/// Whether a cursor lends so many indices and the first ones are these; and none follow where these are all.
fn lends<C: LendingIteration + Sized>(cursor: Result<C, AllocError>, answer: &str) -> bool {
    let (Ok(mut cursor), (Some(mut left), indices)) = (cursor, counted(answer)) else {
        return false;
    };
    for index in indices.split_whitespace() {
        let is_next = match cursor.lend() {
            Some(coordinates) => Words::of(index).is_list(coordinates),
            None => false,
        };
        left = left.wrapping_sub(1);
        if !is_next || cursor.left() != left {
            return false;
        }
    }
    cursor.left() == left && (left > 0 || cursor.lend().is_none() && cursor.lend().is_none())
}

/// The same of the cursor over a shape in an order.
fn is_lent(order: Order, dim: IxDyn, answer: &str) -> bool {
    match order {
        Order::RowMajor => lends(row_cursor(dim), answer),
        Order::ColumnMajor => lends(column_cursor(dim), answer),
    }
}
